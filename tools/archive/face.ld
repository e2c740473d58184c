/* What runs a list, and what tells who painted a dot, begins 48 bytes into a cache line (docs/DECISIONS.md, B15), and what else a face
   has behind it, from a cache line on: how fast it is must not depend on what a host links before it. */
SECTIONS
{
    .text : ALIGN(64) SUBALIGN(16) { . = 48; *(.text.*_run .text.*_who) . = ALIGN(64); *(.text .text.*) }
}
