"""The record of european-morning: each of its 124 lines is the market's."""
import joined_record

joined_record.write("european-morning")
