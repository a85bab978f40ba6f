"""The sale of one-sale, before anything was written on the disk."""
import recovered_input

recovered_input.write_input("one-sale", b"")
