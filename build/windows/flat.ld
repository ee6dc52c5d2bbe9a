/* The library as one run of bytes from 0 on: its code, the constants that the code reads, and at the end 16 bytes for a jump to
 * each function that it calls. A section that isn't named here stops the link. */
ENTRY(outside)
SECTIONS
{
    . = 0;
    .flat : {
        *(.text .text.*)
        *(.rodata .rodata.*)
        . = ALIGN(16);
        outside = .;
        rattle_alloc = .;
        . += 16;
        rattle_realloc = .;
        . += 16;
        rattle_dealloc = .;
        . += 16;
        memcpy = .;
        . += 16;
        memmove = .;
        . += 16;
        memset = .;
        . += 16;
    }
    .none : {
        *(.data .data.* .bss .bss.* COMMON)
        *(.got .got.plt .plt .iplt .igot.plt .rela.*)
    }
    /DISCARD/ : { *(.comment) *(.note .note.*) *(.eh_frame) *(.debug_*) }
}
ASSERT(ALIGNOF(.flat) <= 64, "a section wants more alignment than build.sh gives")
ASSERT(SIZEOF(.none) == 0, "there is data that is written, or a table of addresses")
