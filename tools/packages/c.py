"""The package for C and C++: headers, static and shared libraries, and how pkg-config and CMake find them, from any prefix."""
import os
import shutil

from . import CALENDAR, HIGHER, LAYERS, LICENCES, version

CMAKE = """\
# The targets calendar::calendar and calendar::layers (static), calendar::shared and calendar::layers_shared, beside the files of
# this package wherever they lie.
get_filename_component(_calendar_prefix "${CMAKE_CURRENT_LIST_DIR}/../../.." ABSOLUTE)
function(_calendar_add static shared name)
  if(NOT TARGET calendar::${static})
    add_library(calendar::${static} STATIC IMPORTED)
    set_target_properties(calendar::${static} PROPERTIES
      IMPORTED_LOCATION "${_calendar_prefix}/lib/lib${name}.a"
      INTERFACE_INCLUDE_DIRECTORIES "${_calendar_prefix}/include")
    add_library(calendar::${shared} SHARED IMPORTED)
    set_target_properties(calendar::${shared} PROPERTIES
      IMPORTED_LOCATION "${_calendar_prefix}/lib/lib${name}.so.0"
      IMPORTED_SONAME lib${name}.so.0
      INTERFACE_INCLUDE_DIRECTORIES "${_calendar_prefix}/include")
  endif()
endfunction()
_calendar_add(calendar shared calendar)
_calendar_add(layers layers_shared calendar_layers)
unset(_calendar_prefix)
"""

CMAKE_VERSION = """\
set(PACKAGE_VERSION "{version}")
if(PACKAGE_VERSION VERSION_LESS PACKAGE_FIND_VERSION)
  set(PACKAGE_VERSION_COMPATIBLE FALSE)
else()
  set(PACKAGE_VERSION_COMPATIBLE TRUE)
  if(PACKAGE_VERSION VERSION_EQUAL PACKAGE_FIND_VERSION)
    set(PACKAGE_VERSION_EXACT TRUE)
  endif()
endif()
"""


def pkg_config(top, name):
    """What pkg-config reads of a library. It links the static one, so that a program runs without the shared one."""
    with open(f"{top}/amalgamation/{name}.pc.in", encoding="utf-8") as it:
        return it.read().replace("@CALENDAR_VERSION@", version(top)).replace("@CALENDAR_LIBRARY@", f":lib{name}.a")


def make(top, built, dist):
    """Makes include/, lib/ and share/; the paths of their files."""
    copied = {
        **{f"{top}/languages/c/{it}.h": f"include/{it}.h" for it in (CALENDAR, LAYERS)},
        **{f"{built}/lib{it}.{kind}": f"lib/lib{it}.{kind}" for it in (CALENDAR, LAYERS) for kind in ("a", "so.0")},
        **{f"{top}/{it}": f"share/doc/calendar/{it}" for it in LICENCES},
    }
    if os.path.exists(f"{built}/{HIGHER}"):
        copied[f"{built}/{HIGHER}"] = f"lib/{HIGHER}"
    written = {
        **{f"lib/pkgconfig/{it}.pc": pkg_config(top, it) for it in (CALENDAR, LAYERS)},
        "lib/cmake/calendar/calendar-config.cmake": CMAKE,
        "lib/cmake/calendar/calendar-config-version.cmake": CMAKE_VERSION.format(version=version(top)),
    }
    links = {f"lib/lib{it}.so": f"lib{it}.so.0" for it in (CALENDAR, LAYERS)}
    paths = [f"{dist}/{it}" for it in (*copied.values(), *written, *links)]
    for it in paths:
        os.makedirs(os.path.dirname(it), exist_ok=True)
    for source, path in copied.items():
        shutil.copy(source, f"{dist}/{path}")
    for path, text in written.items():
        with open(f"{dist}/{path}", "w", encoding="utf-8") as it:
            it.write(text)
    for path, target in links.items():
        if os.path.lexists(f"{dist}/{path}"):
            os.remove(f"{dist}/{path}")
        os.symlink(target, f"{dist}/{path}")
    return paths
