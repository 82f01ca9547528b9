/* opencsd_reader COMMAND [--raw] [--depth N] [--vmid N] [--cid N] [IMAGE]: reads a capture from standard input by OpenCSD,
   to compare times with. It is no part of the program.

   packets   counts packets, and prints how many
   decode    decodes over the image, and prints how many instructions were executed
   lines     decodes, and prints the line of each instruction, as `etm path` does, and no other line

   The image is in the text form of `etm path`, and so are the options; without --raw the capture is in frames. */
#include <ctype.h>
#include <inttypes.h>
#include <stdint.h>
#include <stdio.h>
#include <stdlib.h>
#include <string.h>

#include <opencsd/c_api/opencsd_c_api.h>

enum { FRAME = 16, PIECE = 65536, BUFFER = 65536, LONGEST_LINE = 20, LAST_ID = 111, RAW_ID = 1 };

static uint64_t count;
static char buffer[BUFFER];
static size_t held;

static void fail(const char *what) {
  fprintf(stderr, "opencsd_reader: %s\n", what);
  exit(1);
}

/* ---- lines */

static void write_out(void) {
  if (fwrite(buffer, 1, held, stdout) != held) fail("standard output can't be written");
  held = 0;
}

static void put_line(uint8_t id, uint64_t address) {
  static const char digits[] = "0123456789abcdef";
  int shift = 60;
  if (held + LONGEST_LINE > BUFFER) write_out();
  char *to = buffer + held;
  *to++ = digits[id >> 4];
  *to++ = digits[id & 15];
  *to++ = ' ';
  while (shift > 0 && address >> shift == 0) shift -= 4;
  for (; shift >= 0; shift -= 4) *to++ = digits[address >> shift & 15];
  *to++ = '\n';
  held = to - buffer;
}

/* ---- what OpenCSD calls */

static ocsd_datapath_resp_t count_packet(const void *context, ocsd_datapath_op_t op, ocsd_trc_index_t at,
                                         const void *packet) {
  (void)context, (void)at, (void)packet;
  if (op == OCSD_OP_DATA) count++;
  return OCSD_RESP_CONT;
}

static ocsd_datapath_resp_t count_element(const void *context, ocsd_trc_index_t at, uint8_t id,
                                          const ocsd_generic_trace_elem *element) {
  (void)context, (void)at, (void)id;
  if (element->elem_type == OCSD_GEN_TRC_ELEM_INSTR_RANGE) count += (element->en_addr - element->st_addr) / 4;
  return OCSD_RESP_CONT;
}

static ocsd_datapath_resp_t print_element(const void *context, ocsd_trc_index_t at, uint8_t id,
                                          const ocsd_generic_trace_elem *element) {
  (void)context, (void)at;
  if (element->elem_type == OCSD_GEN_TRC_ELEM_INSTR_RANGE)
    for (uint64_t address = element->st_addr; address != element->en_addr; address += 4)
      put_line(id, address);
  return OCSD_RESP_CONT;
}

/* ---- the image */

static uint8_t *text_of(const char *name) {
  FILE *file = fopen(name, "r");
  if (file == NULL || fseek(file, 0, SEEK_END) != 0) fail("the image can't be read");
  long size = ftell(file);
  uint8_t *text = malloc(size + 1);
  rewind(file);
  if (text == NULL || fread(text, 1, size, file) != (size_t)size) fail("the image can't be read");
  text[size] = 0;
  fclose(file);
  return text;
}

static int digit_at(const uint8_t *text) { return isdigit(*text) ? *text - '0' : tolower(*text) - 'a' + 10; }

/* Puts the bytes of a part where its text was, and gives their end. The image is one that `etm path` takes. */
static uint8_t *part_of(const uint8_t **text, uint8_t *to) {
  while (**text != 0 && **text != '@') {
    if (**text == '#')
      while (**text != 0 && **text != '\n') ++*text;
    else if (isspace(**text))
      ++*text;
    else {
      *to++ = digit_at(*text) << 4 | digit_at(*text + 1);
      *text += 2;
    }
  }
  return to;
}

static void add_image(dcd_tree_handle_t tree, const char *name) {
  uint8_t *to = text_of(name);
  const uint8_t *text = to;
  part_of(&text, to);
  while (*text == '@') {
    char *behind;
    uint64_t start = strtoull((const char *)text + 1, &behind, 16);
    text = (const uint8_t *)behind;
    uint8_t *end = part_of(&text, to);
    if (end > to && ocsd_dt_add_buffer_mem_acc(tree, start, OCSD_MEM_SPACE_ANY, to, end - to) != OCSD_OK)
      fail("the image is refused");
    to = end;
  }
}

/* ---- decoders */

typedef struct {
  const char *command, *image;
  int raw, depth, vmid, cid;
} Words;

static int is(const Words *words, const char *command) { return strcmp(words->command, command) == 0; }

/* The registers of a trace unit for A64 with a return stack, whose VMID and context ID have so many bytes. */
static ocsd_etmv4_cfg settings_of(const Words *words, uint8_t id) {
  ocsd_etmv4_cfg made = {0};
  made.reg_idr0 = 0x28000ea1;                              /* RETSTACK, TSSIZE of 64 bits */
  made.reg_idr1 = 0x4100f403;                              /* ETMv4.0 */
  made.reg_idr2 = 8 | words->cid << 5 | words->vmid << 10; /* IASIZE of 64 bits, CIDSIZE, VMIDSIZE */
  made.reg_idr8 = words->depth;                            /* MAXSPEC */
  made.reg_configr = 1 | 1 << 12 | (words->cid != 0) << 6 | (words->vmid != 0) << 7; /* RS, CID, VMID */
  made.reg_traceidr = id;
  made.arch_ver = ARCH_V8;
  made.core_prof = profile_CortexA;
  return made;
}

static void add_decoder(dcd_tree_handle_t tree, const Words *words, uint8_t id) {
  ocsd_etmv4_cfg settings = settings_of(words, id);
  int flags = is(words, "packets") ? OCSD_CREATE_FLG_PACKET_PROC : OCSD_CREATE_FLG_FULL_DECODER;
  if (ocsd_dt_create_decoder(tree, OCSD_BUILTIN_DCD_ETMV4I, flags, &settings, &id) != OCSD_OK)
    fail("no decoder could be made");
  if (is(words, "packets") &&
      ocsd_dt_attach_packet_callback(tree, id, OCSD_C_API_CB_PKT_SINK, count_packet, NULL) != OCSD_OK)
    fail("packets can't be counted");
}

static dcd_tree_handle_t tree_of(const Words *words) {
  ocsd_def_errlog_init(OCSD_ERR_SEV_NONE, 0);
  dcd_tree_handle_t tree = words->raw ? ocsd_create_dcd_tree(OCSD_TRC_SRC_SINGLE, 0)
                                      : ocsd_create_dcd_tree(OCSD_TRC_SRC_FRAME_FORMATTED, OCSD_DFRMTR_FRAME_MEM_ALIGN);
  if (tree == C_API_INVALID_TREE_HANDLE) fail("no tree could be made");
  for (int id = 1; id <= (words->raw ? RAW_ID : LAST_ID); id++) add_decoder(tree, words, id);
  if (!is(words, "packets")) ocsd_dt_set_gen_elem_outfn(tree, is(words, "lines") ? print_element : count_element, NULL);
  if (words->image != NULL) add_image(tree, words->image);
  return tree;
}

/* ---- the capture */

static void give(dcd_tree_handle_t tree, ocsd_trc_index_t at, const uint8_t *bytes, uint32_t size) {
  while (size > 0) {
    uint32_t taken = 0;
    if (!OCSD_DATA_RESP_IS_CONT(ocsd_dt_process_data(tree, OCSD_OP_DATA, at, size, bytes, &taken)))
      fail("the capture is refused");
    at += taken;
    bytes += taken;
    size -= taken;
  }
}

static void read_capture(dcd_tree_handle_t tree, int raw) {
  static uint8_t piece[PIECE];
  uint32_t taken = 0;
  ocsd_trc_index_t at = 0;
  for (size_t got; (got = fread(piece, 1, PIECE, stdin)) > 0; at += got)
    give(tree, at, piece, raw ? got : got / FRAME * FRAME);
  ocsd_dt_process_data(tree, OCSD_OP_EOT, 0, 0, NULL, &taken);
}

static int number_of(const char *option, const char *name, const char *value, int *number) {
  if (strcmp(option, name) != 0) return 0;
  *number = value == NULL ? 0 : atoi(value);
  return 1;
}

static Words words_of(int argc, char **argv) {
  Words words = {argc > 1 ? argv[1] : "", NULL, 0, 16, 1, 4};
  for (int i = 2; i < argc; i++) {
    if (strcmp(argv[i], "--raw") == 0)
      words.raw = 1;
    else if (number_of(argv[i], "--depth", argv[i + 1], &words.depth) ||
             number_of(argv[i], "--vmid", argv[i + 1], &words.vmid) || number_of(argv[i], "--cid", argv[i + 1], &words.cid))
      i++;
    else
      words.image = argv[i];
  }
  int over_image = is(&words, "decode") || is(&words, "lines");
  if (over_image ? words.image == NULL : !is(&words, "packets")) fail("the words have no meaning");
  return words;
}

int main(int argc, char **argv) {
  Words words = words_of(argc, argv);
  dcd_tree_handle_t tree = tree_of(&words);
  read_capture(tree, words.raw);
  ocsd_destroy_dcd_tree(tree);
  write_out();
  if (!is(&words, "lines")) printf("%" PRIu64 "\n", count);
  return fflush(stdout) == 0 ? 0 : 1;
}
