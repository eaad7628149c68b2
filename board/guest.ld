/* The guest's memory is the four pages below the card's, and its last bytes are near enough to the card for a literal. */
ENTRY(vectors)
SECTIONS
{
    . = 0x09FFC000;
    .text : { *(.text) }
    . = 0x09FFFFC0;
    .near : { *(.near) }
    /DISCARD/ : { *(.ARM.attributes) *(.note*) }
}
