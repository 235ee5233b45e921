# Defines the targets of find_package(partmem): partmem::partmem for programs, partmem::partmem_kernel for kernels, and
# partmem::partmem_linux for modules of Linux. These are for x86-64. For AArch64 and RISC-V there are partmem::partmem_arm64,
# partmem::partmem_kernel_arm64, partmem::partmem_riscv64 and partmem::partmem_kernel_riscv64. Paths are relative to this file, so
# the installation may be moved.
get_filename_component(_partmem_prefix "${CMAKE_CURRENT_LIST_DIR}/@PREFIX@" ABSOLUTE)
get_filename_component(_partmem_libdir "${CMAKE_CURRENT_LIST_DIR}/../.." ABSOLUTE)
foreach(_partmem_archive partmem partmem_kernel partmem_linux partmem_arm64 partmem_kernel_arm64 partmem_riscv64
    partmem_kernel_riscv64)
  if(NOT TARGET partmem::${_partmem_archive})
    add_library(partmem::${_partmem_archive} STATIC IMPORTED)
    set_target_properties(partmem::${_partmem_archive} PROPERTIES
      IMPORTED_LINK_INTERFACE_LANGUAGES C
      IMPORTED_LOCATION "${_partmem_libdir}/lib${_partmem_archive}.a"
      INTERFACE_INCLUDE_DIRECTORIES "${_partmem_prefix}/include")
  endif()
endforeach()
unset(_partmem_archive)
unset(_partmem_libdir)
unset(_partmem_prefix)
