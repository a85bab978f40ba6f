"""The sale of one-sale with the first line of another market: it is not what is printed there."""
import recovered_input

recovered_input.write_input("one-sale", recovered_input.crashed("one-sale", 1).replace(b"h12", b"h13"))
