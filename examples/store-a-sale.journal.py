"""The image of the two lines of the journal of one-sale."""
import stored_image

stored_image.write_image(stored_image.lines_of("one-sale"))
