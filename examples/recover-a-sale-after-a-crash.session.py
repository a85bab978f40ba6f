"""The sale of one-sale, of which a crash left the first line on the disk."""
import recovered_input

recovered_input.write_input("one-sale", recovered_input.crashed("one-sale", 1))
