/* All code and constants of the archive, from `base` on. Anything else, as data that is written, is an error. */
SECTIONS {
    . = base;
    .block : {
        *(.text .text.*)
        . = ALIGN(64);
        *(.rodata .rodata.*)
        . = ALIGN(8);
    }
    .symtab 0 : { *(.symtab) }
    .strtab 0 : { *(.strtab) }
    .shstrtab 0 : { *(.shstrtab) }
    /DISCARD/ : { *(.eh_frame .comment .note.* .llvm_addrsig) }
}
