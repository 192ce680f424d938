"""The types of this package, for type checkers and editors."""

from typing import Dict, Generic, Iterable, Iterator, List, Literal, Optional, Protocol, Tuple, TypeVar, Union, overload

from .event import Csi as Csi, Esc as Esc, Event as Event, Execute as Execute, Hook as Hook, Osc as Osc, Put as Put, Text as Text
from .event import Unhook as Unhook
from .screen import Cell as Cell, Change as Change, Color as Color, Cursor as Cursor, History as History, Margins as Margins
from .screen import Modes as Modes, Place as Place, Screen as Screen, Style as Style, color_rgb as color_rgb

_Bytes = Union[bytes, bytearray, memoryview]
_Styling = Literal["both", "light", "dark", "classes"]
_Shown = Union[bool, Tuple[int, int]]
_Piece = TypeVar("_Piece", str, bytes, covariant=True)
_Found = TypeVar("_Found", Event, Tuple[Event, int])

class _File(Protocol[_Piece]):
    def read(self, __size: int) -> _Piece: ...

__version__: str
STYLINGS: Dict[_Styling, int]

@overload
def strip(text: str, *, safe: bool = False, lf: bool = False, no_hidden: bool = False) -> str: ...
@overload
def strip(text: _Bytes, *, safe: bool = False, lf: bool = False, no_hidden: bool = False) -> bytes: ...
@overload
def safe(text: str) -> str: ...
@overload
def safe(text: _Bytes) -> bytes: ...
@overload
def shown(
    text: str, columns: Optional[int] = None, rows: Optional[int] = None, *, safe: bool = False, no_hidden: bool = False
) -> str: ...
@overload
def shown(
    text: _Bytes, columns: Optional[int] = None, rows: Optional[int] = None, *, safe: bool = False, no_hidden: bool = False
) -> bytes: ...
@overload
def shown_of(
    stream: Union[Iterable[str], _File[str]],
    columns: Optional[int] = None,
    rows: Optional[int] = None,
    *,
    safe: bool = False,
    no_hidden: bool = False,
) -> str: ...
@overload
def shown_of(
    stream: Union[Iterable[_Bytes], _File[bytes]],
    columns: Optional[int] = None,
    rows: Optional[int] = None,
    *,
    safe: bool = False,
    no_hidden: bool = False,
) -> bytes: ...
@overload
def text_of(
    stream: Union[Iterable[str], _File[str]], *, safe: bool = False, lf: bool = False, no_hidden: bool = False
) -> Iterator[str]: ...
@overload
def text_of(
    stream: Union[Iterable[_Bytes], _File[bytes]], *, safe: bool = False, lf: bool = False, no_hidden: bool = False
) -> Iterator[bytes]: ...
@overload
def to_html(
    text: str,
    styling: _Styling = "both",
    *,
    shown: _Shown = False,
    lines: bool = False,
    urls: bool = False,
    no_hidden: bool = False,
) -> str: ...
@overload
def to_html(
    text: _Bytes,
    styling: _Styling = "both",
    *,
    shown: _Shown = False,
    lines: bool = False,
    urls: bool = False,
    no_hidden: bool = False,
) -> bytes: ...
@overload
def html_of(
    stream: Union[Iterable[str], _File[str]],
    styling: _Styling = "both",
    *,
    shown: _Shown = False,
    lines: bool = False,
    urls: bool = False,
    no_hidden: bool = False,
) -> Iterator[str]: ...
@overload
def html_of(
    stream: Union[Iterable[_Bytes], _File[bytes]],
    styling: _Styling = "both",
    *,
    shown: _Shown = False,
    lines: bool = False,
    urls: bool = False,
    no_hidden: bool = False,
) -> Iterator[bytes]: ...
@overload
def page(
    text: str,
    styling: _Styling = "both",
    *,
    title: str = "Terminal output",
    lang: str = "en",
    css: Optional[str] = None,
    scroll: bool = False,
    shown: _Shown = False,
    lines: bool = False,
    urls: bool = False,
    no_hidden: bool = False,
) -> str: ...
@overload
def page(
    text: _Bytes,
    styling: _Styling = "both",
    *,
    title: str = "Terminal output",
    lang: str = "en",
    css: Optional[str] = None,
    scroll: bool = False,
    shown: _Shown = False,
    lines: bool = False,
    urls: bool = False,
    no_hidden: bool = False,
) -> bytes: ...
def stylesheet(scheme: Literal["both", "light", "dark"] = "both") -> str: ...

def events(stream: Union[str, _Bytes, Iterable[Union[str, _Bytes]], _File[str], _File[bytes]]) -> Iterator[Event]: ...

class Events(Generic[_Found]):
    @overload
    def __init__(self: Events[Event], ends: Literal[False] = False) -> None: ...
    @overload
    def __init__(self: Events[Tuple[Event, int]], ends: Literal[True]) -> None: ...
    def feed(self, piece: Union[str, _Bytes]) -> List[_Found]: ...
    def end(self) -> None: ...
