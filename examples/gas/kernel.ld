/* Where the parts of the kernel lie: a program at fixed addresses, not a PIE. */
OUTPUT_FORMAT(elf64-x86-64)
ENTRY(entry_syscall)

PHDRS
{
  entry PT_LOAD FLAGS(5);
  text PT_LOAD FLAGS(5);
  area PT_LOAD FLAGS(6);
  stacks PT_LOAD FLAGS(6);
}

SECTIONS
{
  /* The two pages that the user's page tables map of the kernel's code. Bytes between the entries are INT3. */
  .entry.text 0xffffffff81000000 : { *(.entry.text) . = 0x1000; } :entry =0xcccccccc
  .quiet.text 0xffffffff81001000 : { *(.quiet.text) . = 0x1000; } :entry =0xcccccccc
  .text 0xffffffff81200000 : { *(.text) } :text
  .cpu_area 0xffffffff82000000 (NOLOAD) : { *(.cpu_area) } :area
  .stacks 0xffffffff83000000 (NOLOAD) : { *(.stacks) } :stacks
  /DISCARD/ : { *(.note*) *(.comment) }
}
