"""The sale of one-sale: behind the first line a gate is open that has no line."""
import recovered_input

recovered_input.write_input("one-sale", recovered_input.crashed("one-sale", 1)[:-1] + b"\1")
