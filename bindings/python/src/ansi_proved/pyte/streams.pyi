"""The types of pyte's streams, for type checkers and editors."""

from typing import Optional, Union

from .screens import Screen

class Stream:
    listener: Optional[Screen]
    def __init__(self, screen: Optional[Screen] = None) -> None: ...
    def attach(self, screen: Screen) -> None: ...
    def detach(self, screen: Screen) -> None: ...
    def feed(self, data: str) -> None: ...

class ByteStream(Stream):
    def feed(self, data: Union[bytes, bytearray, memoryview]) -> None: ...  # type: ignore[override]
