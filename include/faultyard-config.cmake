# find_package(faultyard) for CMake 3.13 and later. It gives these targets:
#
#   faultyard::faultyard    the shared library, or the archive where there is no shared one
#   faultyard::static       the archive
#
# The paths go by where this file lies, so the folder of the release may be moved.
get_filename_component(_faultyard_libraries "${CMAKE_CURRENT_LIST_DIR}/../.." REALPATH)
get_filename_component(_faultyard_prefix "${_faultyard_libraries}" DIRECTORY)
if(NOT EXISTS "${_faultyard_prefix}/include/faultyard.h")
    # Debian's libraries lie a folder deeper, in one of the machine's triplet.
    get_filename_component(_faultyard_prefix "${_faultyard_prefix}" DIRECTORY)
endif()

foreach(_faultyard_target faultyard static)
    if(_faultyard_target STREQUAL "faultyard" AND EXISTS "${_faultyard_libraries}/libfaultyard.so")
        set(_faultyard_kind SHARED)
        set(_faultyard_file "${_faultyard_libraries}/libfaultyard.so")
    else()
        set(_faultyard_kind STATIC)
        set(_faultyard_file "${_faultyard_libraries}/libfaultyard.a")
    endif()
    if(NOT EXISTS "${_faultyard_prefix}/include/faultyard.h" OR NOT EXISTS "${_faultyard_file}")
        set(faultyard_FOUND FALSE)
        set(faultyard_NOT_FOUND_MESSAGE "there is no faultyard.h or library beside ${CMAKE_CURRENT_LIST_FILE}")
    elseif(NOT TARGET faultyard::${_faultyard_target})
        add_library(faultyard::${_faultyard_target} ${_faultyard_kind} IMPORTED)
        set_target_properties(faultyard::${_faultyard_target} PROPERTIES
            IMPORTED_LOCATION "${_faultyard_file}"
            IMPORTED_LINK_INTERFACE_LANGUAGES C
            INTERFACE_INCLUDE_DIRECTORIES "${_faultyard_prefix}/include")
    endif()
endforeach()

foreach(_faultyard_name libraries prefix target kind file name)
    unset(_faultyard_${_faultyard_name})
endforeach()
