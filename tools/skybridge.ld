/* Where a text and its initial data stand: docs/FORMATS.md, "The memory of a thread". Gaps in a text are filled with NOP. */
SECTIONS {
  .text 0x400000 : { *(.text .text.*) } =0x90909090
  .data 0x800000 : { *(.data .data.* .rodata .rodata.* .bss .bss.* COMMON) }
  /DISCARD/ : { *(.note .note.* .comment .eh_frame .eh_frame_hdr) }
}
