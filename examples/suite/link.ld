/* Two regions, at the addresses that build.sh gives by --defsym: what is executed at text_start,
   and all that is written at data_start, `tohost` included. The headers are named here, and so the
   file's own headers stay out of the first segment. */
OUTPUT_ARCH(riscv)
ENTRY(rvtest_entry_point)

PHDRS
{
  text PT_LOAD FLAGS(5);
  data PT_LOAD FLAGS(6);
}

SECTIONS
{
  . = text_start;
  .text : { *(.text.init) *(.text .text.*) } :text
  . = data_start;
  .data : { *(.tohost) *(.data .data.*) *(.rodata .rodata.*) *(.sdata .sdata.*) } :data
  .bss : { *(.sbss .sbss.*) *(.bss .bss.*) *(COMMON) } :data
}
