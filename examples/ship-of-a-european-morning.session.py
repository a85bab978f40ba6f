"""The record of european-morning, of which the schedule is written: what flows over each border, and each zone's position."""
import joined_record

joined_record.write("european-morning")
