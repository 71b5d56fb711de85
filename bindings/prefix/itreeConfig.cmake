# itree::itree is the shared object, itree::static the archive. Both bring itree.h, and for C++ itree.hpp, for which they ask
# for C++17.
get_filename_component(_itree_prefix "${CMAKE_CURRENT_LIST_DIR}/../../.." ABSOLUTE)

if(NOT TARGET itree::itree)
    add_library(itree::itree SHARED IMPORTED)
    set_target_properties(itree::itree PROPERTIES
        IMPORTED_LOCATION "${_itree_prefix}/lib/@SONAME@"
        IMPORTED_SONAME "@SONAME@"
        INTERFACE_INCLUDE_DIRECTORIES "${_itree_prefix}/include")

    add_library(itree::static STATIC IMPORTED)
    set_target_properties(itree::static PROPERTIES
        IMPORTED_LOCATION "${_itree_prefix}/lib/libitree.a"
        IMPORTED_LINK_INTERFACE_LANGUAGES "C"
        INTERFACE_LINK_LIBRARIES "@LIBRARIES@"
        INTERFACE_INCLUDE_DIRECTORIES "${_itree_prefix}/include")

    # In a project of C alone CMake knows no feature of C++.
    if(CMAKE_CXX_COMPILER_LOADED)
        set_target_properties(itree::itree itree::static PROPERTIES INTERFACE_COMPILE_FEATURES cxx_std_17)
    endif()
endif()

unset(_itree_prefix)
