"""One byte more than a session may have."""
import padded_sale

padded_sale.write(8388609)
