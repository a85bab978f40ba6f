"""4096 buys of one lot rest in an hour, the last of them at the best price. One more is refused, but for one that does
not rest, and trades make room for others."""
print("day 2025-06-17", "zone DE", "zone FR", "border DE FR", sep="\n")
print("trader ann", "trader bob", "trader cat", "operator tso", "begin", sep="\n")
for _ in range(4095):
    print("ann buy h12 DE 0.1 10.00")
print("ann buy h12 DE 0.1 10.01")
print("ann buy h12 DE 0.1 10.00")
print("ann buy h12 DE 0.1 10.00 ioc")
print("bob sell h12 DE 0.2 10.00")
print("ann buy h12 DE 0.1 10.00")
