/* The virt board has its memory from 0x40000000, and QEMU puts a device tree at its start. */
ENTRY(_start)
SECTIONS
{
    . = 0x40200000;
    .text : { *(.text.start) *(.text*) }
    .rodata : { *(.rodata*) }
    .guest ALIGN(0x10000) : { *(.guest) }
    .data : { *(.data*) }
    .bss : { *(.bss*) *(COMMON) . = ALIGN(16); . += 0x4000; stack_top = .; }
    /DISCARD/ : { *(.comment) *(.note*) *(.eh_frame*) }
}
