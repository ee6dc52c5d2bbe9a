# The extension module: cffi's two objects, whose calls and structs are those of fazgrond.h.
from typing import Any

ffi: Any
lib: Any
