"""pyte's streams: what they are fed goes to the screen whole."""

from .screens import HistoryScreen, Screen

# the methods that pyte's streams call, which the library does itself
_CALLED = """
    alignment_display backspace bell carriage_return clear_tab_stop cursor_back cursor_down cursor_down1 cursor_forward cursor_position
    cursor_to_column cursor_to_line cursor_up cursor_up1 debug define_charset delete_characters delete_lines draw erase_characters
    erase_in_display erase_in_line index insert_characters insert_lines linefeed report_device_attributes report_device_status reset
    reset_mode restore_cursor reverse_index save_cursor select_graphic_rendition set_icon_name set_margins set_mode set_tab_stop set_title
    shift_in shift_out tab before_event after_event
""".split()


def _overridden(screen):
    """The names of those methods that a screen has of its own."""
    ours = HistoryScreen if isinstance(screen, HistoryScreen) else Screen
    return [it for it in _CALLED if it in vars(screen) or getattr(type(screen), it, None) is not getattr(ours, it, None)]


class Stream:
    """What is fed to a screen, as str: attached by its constructor or by `attach`."""

    _kinds = (str,)

    def __init__(self, screen=None):
        self.listener = None
        if screen is not None:
            self.attach(screen)

    def attach(self, screen):
        """Feeds this screen from now on, in place of another. A screen that overrides what the library does itself is a TypeError."""
        if not isinstance(screen, Screen):
            raise TypeError("a stream feeds a Screen of ansi_proved.pyte, and not %s" % type(screen).__name__)
        never_called = _overridden(screen)
        if never_called:
            raise TypeError("no stream calls %s of a screen: the library does it whole" % ", ".join(never_called))
        self.listener = screen

    def detach(self, screen):
        """Feeds this screen no longer, where it did."""
        if screen is self.listener:
            self.listener = None

    def feed(self, data):
        """Hands the next part of the stream on, cut anywhere."""
        if not isinstance(data, self._kinds):
            raise TypeError("a %s is fed %s, and not %s" % (type(self).__name__, self._kinds[0].__name__, type(data).__name__))
        self.listener.feed(data)


class ByteStream(Stream):
    """The same of bytes, which are UTF-8: a broken character is U+FFFD."""

    _kinds = (bytes, bytearray, memoryview)
