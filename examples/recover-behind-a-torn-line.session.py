"""The sweep after a leg, of which a crash left two lines and a part of the third, whose gate is shut."""
import recovered_input

recovered_input.write_input("sweep-after-a-leg", recovered_input.torn("sweep-after-a-leg", 2))
