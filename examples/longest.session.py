"""A session of 8388608 bytes, as many as it may have."""
import padded_sale

padded_sale.write(8388608)
