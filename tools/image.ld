/* An x86-64 object as one image: code and constants and nothing else, from address `base` on. */
SECTIONS
{
    . = base;
    .image : ALIGN(64) { *(.text .text.*) *(.rodata .rodata.*) }
    .other : { *(.data .data.* .bss .bss.* .tdata .tbss .got .got.* .plt .iplt .igot .igot.* .rela.*) *(COMMON) }
    /DISCARD/ : { *(.comment) *(.note.*) *(.eh_frame) *(.llvm_addrsig) }
    ASSERT(SIZEOF(.other) == 0, "image: there is more than code and constants")
}
