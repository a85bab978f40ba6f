"""One buy takes 4096 sells of one lot each, in the order of their entry."""
print("day 2025-06-17", "zone DE", "zone FR", "border DE FR", sep="\n")
print("trader ann", "trader bob", "trader cat", "operator tso", "begin", sep="\n")
for _ in range(4096):
    print("ann sell h12 DE 0.1 10.00")
print("bob buy h12 DE 409.6 10.00")
