# Tells find_package whether this version will do: it serves programs that ask for it, or for an older version of the
# same major number, and whose pointers have the size of the library's, unless the headers alone are installed.
set(PACKAGE_VERSION "1.0.0")
string(REGEX MATCH "^[0-9]+" _rapidhash_c_major "${PACKAGE_VERSION}")

if(PACKAGE_FIND_VERSION_MAJOR EQUAL _rapidhash_c_major AND NOT PACKAGE_FIND_VERSION VERSION_GREATER PACKAGE_VERSION)
  set(PACKAGE_VERSION_COMPATIBLE TRUE)
endif()
if(PACKAGE_FIND_VERSION VERSION_EQUAL PACKAGE_VERSION)
  set(PACKAGE_VERSION_EXACT TRUE)
endif()
set(_rapidhash_c_library "${CMAKE_CURRENT_LIST_DIR}/../../librapidhash_c.so.1")
if(CMAKE_SIZEOF_VOID_P AND EXISTS "${_rapidhash_c_library}")
  file(READ "${_rapidhash_c_library}" _rapidhash_c_class OFFSET 4 LIMIT 1 HEX) # of ELF: 01 for 32 bits, 02 for 64
  if(NOT "${CMAKE_SIZEOF_VOID_P}${_rapidhash_c_class}" MATCHES "^(401|802)$")
    set(PACKAGE_VERSION_UNSUITABLE TRUE)
  endif()
endif()
unset(_rapidhash_c_major)
unset(_rapidhash_c_library)
