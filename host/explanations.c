#include "explanations.h"

#include "glintloom.h"

static const char *const explanations[] = {
    [GLINT_DONE] =
        "The read, the map, the list or the sheet is there as a whole, with its length beside it, or the time with its date. "
        "Nothing in it was guessed: had a byte of it not been found, all of it would have been refused.",
    [GLINT_IN_IMAGE] =
        "The page tables lead to a page of physical memory that is in one of the sheet's runs; the offset is that of the "
        "addressed byte in the image file. For processor-block it is the offset of the block. The verbs page and read show "
        "the bytes of an address.",
    [GLINT_IN_PAGEFILE] =
        "Windows moved the page out of memory, and the pagefile has the whole of it; the offset is that of the addressed byte "
        "in that file. The verbs page and read show the bytes.",
    [GLINT_ZEROS] =
        "The tables say that the page is one of zeros, which Windows makes when it is first touched (demand zero); no file has "
        "it, and the offset is 0 for every byte of it. These zeros are what the tables say and no gap in the evidence; they "
        "are marked wherever they are shown or written.",

    [GLINT_TRUNCATED] =
        "The sheet or the map ends in the middle of a number, or before a field that its counts ask for. It was cut short, or "
        "a count or another number in it is wrong. Compare it with the one that the manual page takes apart byte by byte, and "
        "write it anew.",
    [GLINT_NUMBER_TOO_LONG] =
        "A number of the sheet or the map has more than six groups of seven bits: its sixth byte is 0x80 or more, which says "
        "that a seventh follows. A byte of it is wrong, or one before it is missing or too many, so that fields are read at the "
        "wrong place. Its first byte is told and marked: see what number is meant to stand there, and count the fields before "
        "it.",
    [GLINT_OUT_OF_LIMITS] =
        "The edition is not 1 or, of the sheet of a 32-bit machine, 2, or a number is outside its limits: each is below 2^36, a "
        "mode is 1 or 2, a place at most 127 and in mode 1 zero, a sheet has 1 to 1,000 runs, and a map 1 to 1,048,576 pages "
        "in one half of the addresses. A file that is no sheet or no map is mostly refused so: see first that the files stand "
        "in the order SHEET IMAGE PAGEFILE. The verb sheet refuses so a number of 2^36 pages or more, and no ranges or more "
        "than 1,000 of them.",
    [GLINT_BAD_RUN] =
        "A run of the sheet has no pages, has a gap of 0 although it is not the first, or ends past page 2^36; a gap counts "
        "from the end of the run before, that of the first run from page 0. The verb sheet refuses so a range that has no "
        "pages, starts before the end of the one before it or ends past page 2^36, and ranges that are all 2^36 pages "
        "together. Leave empty ranges out, and give the others in ascending order; sheet joins those that touch.",
    [GLINT_TRAILING_BYTES] =
        "Bytes follow the last field of the sheet or the map. The run count or page count is too small for what stands behind "
        "it, or something was added to the file, such as the end of a line by an editor. Mend the count, or cut off what was "
        "added.",
    [GLINT_IMAGE_LENGTH_DIFFERS] =
        "The image is longer or shorter than the pages of all runs together. The runs lie in it one after another, without a "
        "header and without filler between them: it may be cut short, be in another format than raw, or have filler where "
        "there is no memory. Compare the runs with those that the imaging tool reported, and make a raw image of them alone.",
    [GLINT_PAGEFILE_NOT_WHOLE_PAGES] =
        "The length of the pagefile is not a multiple of 4,096, so it is not the whole file. Copy it again. Without it, "
        "--no-pagefile still answers for all that is in the image, and refuses what is in the pagefile with 27.",
    [GLINT_SHEET_BUFFER_SHORT] =
        "The sheet is longer than the buffer that was lent for it, and nothing was written. This program lends enough for "
        "every sheet; another that calls glint_write_sheet does so with GLINT_SHEET_BYTES bytes.",
    [GLINT_NUMBER_NOT_SHORTEST] =
        "A number of the sheet or the map has a last group of 0, which its shortest form does not have (80 00 in place of 00, "
        "81 00 in place of 01). It was written so, or a byte before it is missing or too many, so that fields are read at the "
        "wrong place. Its first byte is told and marked: write the number that begins there in its shortest form, or count the "
        "fields before it.",

    [GLINT_NOT_CANONICAL] =
        "Bits 47 to 63 of the address are not all equal, so the processor takes it for no address, or a read goes on past the "
        "top; the address space of a 32-bit machine ends at 2^32, and addresses from there on are refused so. Look for a lost "
        "or an added digit: addresses of programs are below 0x0000800000000000, those of the kernel are 0xFFFF800000000000 or "
        "more, and those of a 32-bit machine have at most 8 digits. The verb case shows of which profile the sheet is.",
    [GLINT_UPPER_ENTRY_NOT_VALID] =
        "The first or second level entry of the address is not valid, so nothing is mapped in its 512 GiB or 1 GiB, or on a "
        "32-bit machine in its 4 MiB or, with PAE, its 1 GiB or 2 MiB. If nearly every address is refused so, the directory "
        "page or the profile is not the right one: each process has a directory page of its own. The manual page tells under "
        "CASE SHEET how one is found.",
    [GLINT_REGION_NEEDED] =
        "The tables leave the page to the region record (VAD) of its range: the entry is 0 or says so, or the table that would "
        "have it is not there. Nothing else tells where the page is, or whether there is one, so no byte is shown. Look for "
        "the address in the process's VAD tree with another tool: outside every region it has no page, and in a mapped one the "
        "region's prototype entries lead to it.",
    [GLINT_FRAME_IN_NO_RUN] =
        "The tables lead to a frame of physical memory that is in none of the sheet's runs: that of the page, or that of a "
        "table on the way. The image does not have it, or the runs or the directory page are wrong; with 0 entries read it is "
        "the directory page itself. Compare the runs with those that the imaging tool reported.",
    [GLINT_FRAME_TOO_WIDE] =
        "A valid entry has one of bits 48 to 51 set, so its frame number is wider than 36 bits, or one of bits 13 to 21 in the "
        "entry of a 4 MiB page, whose frame number is then wider than 20. The entry is damaged, or what was read as a table is "
        "none, as behind a wrong directory page or in tables that changed while the image was made. Check the directory page "
        "and the profile; other addresses may still be answered.",
    [GLINT_FILE_BACKED] =
        "The prototype entry says that the page comes from a file of the machine's disk, such as a program or a mapped file, "
        "and is not in memory. Neither the image nor the pagefile has it. Take it from that file, where that can be had.",
    [GLINT_OTHER_PAGEFILE] =
        "The page is in another pagefile than number 0, the only one that a case has. Bits 1 to 4 of its entry are the number "
        "of that pagefile and bits 32 to 63 the page in it, so it can be looked up by hand in a copy of that file.",
    [GLINT_PAST_PAGEFILE] =
        "The page is in the pagefile, but none was given, or the one that was given does not have the whole page: it is "
        "shorter than the machine's was when the image was made. Nothing is filled in for it: a page that is missing is not a "
        "page of zeros. Give the pagefile that was copied together with the image.",
    [GLINT_PROTOTYPE_CHAIN_TOO_LONG] =
        "The address leads through prototype entries, and after three of them a fourth would be needed. Mostly an entry on the "
        "way is damaged and the chain goes in a circle. No place can be told for this address; others may still be answered.",
    [GLINT_PROTOTYPE_UNALIGNED] =
        "The entry names a prototype entry at an address that is not a multiple of 8, where none can be. The entry is damaged, "
        "or what was read as a table is none. Check the directory page; other addresses may still be answered.",
    [GLINT_PAGE_IN_STORE] =
        "Windows compressed the page into a store of its own, as bit 22 of its entry (InStore) says. Neither the image nor the "
        "pagefile has it as a page: what the pagefile holds at the place that the entry seems to name belongs to another page, "
        "or to none, and is not shown. Take it from the store with a tool that unpacks it; a map made by a reader without this "
        "number may name such a false place, and is to be made again.",
    [GLINT_RESERVED_BIT_SET] =
        "A valid entry above the last level has a bit set that Intel reserves: bit 7 in the first level, one of bits 13 to "
        "29 in the entry of a 1 GiB page, or one of bits 13 to 20 in that of a 2 MiB page. No processor follows such an "
        "entry, so it is damaged, or what was read as a table is none, as behind a wrong directory page. Check the "
        "directory page and the profile, and make maps anew that a reader without this number made: they may name a "
        "place here that holds nothing of the page.",
    [GLINT_STATE_NOT_FOLLOWED] =
        "The last-level entry of the address is neither valid nor in transition, and of the tables of 32-bit machines no other "
        "state is followed: the page may be in a pagefile, behind a prototype entry, one of zeros, or none. No byte is shown "
        "for it, neither from the pagefile nor zeros. Look at the entry with another tool, which must know the version of "
        "Windows; if most addresses are refused so, check the directory page, and whether the machine ran with PAE.",
    [GLINT_MODE_NOT_SERVED] =
        "The sheet is that of a 32-bit machine, and processor blocks and process lists are looked for in the layout of 64-bit "
        "Windows alone. The case itself is sound: resolve, page, read, time, map and case answer for it, and pool finds the "
        "pool headers of its image, those of processes among them.",

    [GLINT_BAD_MAP_RANGE] =
        "The range does not start at a multiple of 4,096, has no page or more than 1,048,576, is not in one half of the "
        "addresses or, on a 32-bit machine, ends above 2^32. Round the start down to its page, and make several maps of a "
        "longer range.",
    [GLINT_OUTSIDE_MAP] =
        "The map is sound, but its range does not have the address. Ask resolve, or make a map of a range that has it.",
    [GLINT_BAD_EXTENT] =
        "An extent of the map breaks the layout: a code other than 1, 2, 3, 21 to 29, 31, 33 and 34, a length of 0, pages past "
        "2^36 of the file, an extent that belongs to the one before, or lengths that sum to more than the page count. The map is "
        "damaged, or a later reader wrote it that has more codes. Make it again with map.",
    [GLINT_MAP_BUFFER_SHORT] =
        "The map is longer than the buffer that was lent for it, and nothing was written. This program lends enough for every "
        "map; another that calls glint_map does so with GLINT_MAP_BYTES bytes.",
    [GLINT_READ_BUFFER_SHORT] =
        "More bytes were asked for than the lent buffer has, and nothing was written. This program lends as many as it asks "
        "for; another that calls glint_read must do so too.",
    [GLINT_LINK_UNALIGNED] =
        "The head of the list, or a forward link in it, is not a multiple of 8, where no node can be. See that the head is "
        "PsActiveProcessHead; if it is, a node is damaged or the list changed while the image was made. The verb read shows "
        "the links: forward at the node's address, back 8 bytes on.",
    [GLINT_BACK_LINK_DIFFERS] =
        "The back link of a node is not the node from which it was reached. The head may not be that of a list, a node may be "
        "damaged, the list may have changed while the image was made, or a process may have been taken out by hand. The verb "
        "read shows the links: forward at the node's address, back 8 bytes on.",
    [GLINT_TOO_MANY_PROCESSES] =
        "After 4,096 nodes the list has not come back to its head. No list of processes is so long: see that the head is "
        "PsActiveProcessHead, and not that of another list.",
    [GLINT_LIST_BUFFER_SHORT] =
        "The list has more nodes, or the sheet more runs, than the buffer that was lent has room for, and nothing was written. "
        "This program lends enough for all; another that calls glint_process_list does so with GLINT_LIST_PROCESSES numbers, "
        "one that calls glint_case with GLINT_CASE_NUMBERS.",
    [GLINT_NO_PROCESSOR_BLOCK] =
        "From the given offset on, the image has no processor block (KPCR) of 64-bit Windows 7. A block counts only if its own "
        "address leads back to it by its own directory page (CR3); the sheet's directory page is not asked, but wrong runs "
        "hide every block. Check the runs, and that the machine ran 64-bit Windows 7.",
    [GLINT_TIME_ZERO] =
        "The 8 bytes from the address on are all 0: no time was set there, and none is shown, neither 1601 nor 1970. If bytes of "
        "it are those of a page of zeros, that stands beside it. See that the address is that of the time; the verb read shows "
        "what is around it.",
    [GLINT_TIME_TOO_LARGE] =
        "The 8 bytes from the address on are 2^63 ticks of 100 ns or more, from September 30828 on, which is no time that "
        "Windows keeps. They are damaged, or they are no time. See that the address is that of the time; the verb read shows what is "
        "around it.",
    [GLINT_IMAGE_NOT_WHOLE_PAGES] =
        "Pool headers are looked for page by page, and the image's length is not a multiple of 4,096. It was cut short, or is not "
        "a raw image: copy it again, without header and filler.",
    [GLINT_POOL_BUFFER_SHORT] =
        "The image has more pool headers than the buffer that was lent has places, and nothing was written. This program lends "
        "enough for all; another that calls glint_pool_headers does so with GLINT_PAGE_POOL_HEADERS numbers for each page.",
};

const char *explanation_of(uint64_t number)
{
    return number < sizeof explanations / sizeof explanations[0] ? explanations[number] : NULL;
}
