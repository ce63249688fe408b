"""What a user can mend."""


class Wrong(Exception):
    """An input that can't be read, or words that can't be followed. The text is one line."""
