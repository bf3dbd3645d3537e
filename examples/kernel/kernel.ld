/* Where the parts of the small kernel lie. Linked as a fixed program, not as a PIE. */
OUTPUT_FORMAT(elf64-x86-64)
ENTRY(entry_syscall)

PHDRS
{
  entry PT_LOAD FLAGS(5);
  text PT_LOAD FLAGS(5);
  area PT_LOAD FLAGS(6);
  stack PT_LOAD FLAGS(6);
  entry_stacks PT_LOAD FLAGS(6);
}

SECTIONS
{
  .entry.text 0xffffffff81000000 : { *(.entry.text) . = 0x1000; } :entry =0xcccccccc
  .quiet.text 0xffffffff81001000 : { *(.quiet.text) . = 0x1000; } :entry =0xcccccccc
  .text 0xffffffff81800000 : { *(.text) } :text
  .cpu_entry_area 0xffffffff82000000 (NOLOAD) : { *(.cpu_entry_area) } :area
  .stacks 0xffffffff83002000 (NOLOAD) : { *(.stacks) } :stack
  .entry_stacks 0xffffffff84000000 (NOLOAD) : { *(.entry_stacks) } :entry_stacks
  /DISCARD/ : { *(.note*) *(.comment) }
}
