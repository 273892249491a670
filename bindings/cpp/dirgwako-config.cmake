# find_package(dirgwako): dirgwako::dirgwako for 4 threads, dirgwako::dirgwako16 for 16 and dirgwako::dirgwako32 for 32, those of them that are
# installed. A program links one. A component is the name of one that has to be there.
include(CMakeFindDependencyMacro)
find_dependency(Threads)

get_filename_component(_dirgwako_prefix "${CMAKE_CURRENT_LIST_DIR}/../../.." ABSOLUTE)
foreach(_dirgwako_it dirgwako dirgwako16 dirgwako32)
    set(_dirgwako_archive "${_dirgwako_prefix}/lib/lib${_dirgwako_it}.a")
    if(EXISTS "${_dirgwako_archive}" AND EXISTS "${_dirgwako_prefix}/include/dirgwako.h")
        set(dirgwako_${_dirgwako_it}_FOUND TRUE)
        if(NOT TARGET dirgwako::${_dirgwako_it})
            add_library(dirgwako::${_dirgwako_it} STATIC IMPORTED)
            set_target_properties(dirgwako::${_dirgwako_it} PROPERTIES
                IMPORTED_LOCATION "${_dirgwako_archive}"
                IMPORTED_LINK_INTERFACE_LANGUAGES C
                INTERFACE_INCLUDE_DIRECTORIES "${_dirgwako_prefix}/include"
                INTERFACE_COMPILE_FEATURES cxx_std_17
                INTERFACE_LINK_LIBRARIES Threads::Threads)
        endif()
    endif()
endforeach()

if(NOT dirgwako_FIND_COMPONENTS)
    set(dirgwako_FIND_COMPONENTS dirgwako)
    set(dirgwako_FIND_REQUIRED_dirgwako TRUE)
endif()
foreach(_dirgwako_it ${dirgwako_FIND_COMPONENTS})
    if(dirgwako_FIND_REQUIRED_${_dirgwako_it} AND NOT dirgwako_${_dirgwako_it}_FOUND)
        set(dirgwako_FOUND FALSE)
        set(dirgwako_NOT_FOUND_MESSAGE
            "lib${_dirgwako_it}.a is not in ${_dirgwako_prefix}/lib: install the C library there, by bindings/c/build.sh install")
    endif()
endforeach()
