"""Cases for the ruling sentences of 01, a page for each of its sections, then one for each request of 02."""

from . import (afi_families, blocks_and_areas, commands_on_blocks, finding_every_tag, from_frame_to_command,
               from_frame_to_command_answers, host_calls, inventory, passwords_and_registers, record_and_image,
               session_program, the_tag, where_a_header_is_wrong)

CASES = (the_tag.CASES + host_calls.CASES + record_and_image.CASES + from_frame_to_command.CASES
         + from_frame_to_command_answers.CASES + inventory.CASES + blocks_and_areas.CASES + commands_on_blocks.CASES
         + passwords_and_registers.CASES + finding_every_tag.CASES + where_a_header_is_wrong.CASES
         + afi_families.CASES)
SESSION_CASES = session_program.CASES

__all__ = ["CASES", "SESSION_CASES"]
