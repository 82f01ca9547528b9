// Prints the instructions that OpenCSD finds in a capture: `ID ADDRESS` for each, as `etm path` does for an instruction.
//
//   opencsd_reader [--raw] [--depth N] [--vmid N] [--cid N] [--settings LIST] [--no-return-stack] [--count] IMAGE <CAPTURE
//
// The words and IMAGE are those of `etm path` (docs/FORMATS.md). With --no-return-stack the units have none. With --count only the
// number of instructions is printed, so that a clock sees the decoder and not the printing. Ends with 1 where OpenCSD reports an error, which is then told on
// standard error, and with 2 where a word, the image or a call that sets OpenCSD up is wrong.
//
//   c++ -O2 -o opencsd_reader opencsd_reader.cpp -lopencsd_c_api      (Debian: libopencsd-dev)
#include <cinttypes>
#include <cstdint>
#include <cstdio>
#include <cstdlib>
#include <fstream>
#include <map>
#include <sstream>
#include <string>
#include <vector>

#include "opencsd/c_api/opencsd_c_api.h"

namespace {

constexpr int kFirstId = 0x01, kLastId = 0x6f;
constexpr size_t kPiece = 1 << 16;
constexpr size_t kOutput = 1 << 16;

struct Sizes {
  uint32_t depth = 16, vmid = 1, cid = 4;
};

struct Words {
  bool raw = false, count = false, return_stack = true;
  Sizes all;
  std::map<uint32_t, Sizes> own;  // of the IDs that have their own
  std::string image;
};

// The instructions found: counted, and put into `text` unless they are only counted.
struct Found {
  bool count = false;
  uint64_t instructions = 0;
  std::string text;

  void flush() {
    fwrite(text.data(), 1, text.size(), stdout);
    text.clear();
  }
};

struct Part {
  uint64_t address = 0;
  std::vector<uint8_t> bytes;
};

[[noreturn]] void stop(const std::string& why) {
  fprintf(stderr, "opencsd_reader: %s\n", why.c_str());
  exit(2);
}

void must(ocsd_err_t answer, const char* call) {
  if (answer != OCSD_OK) stop(std::string(call) + ": error " + std::to_string(answer));
}

// The sizes of single IDs: ID:DEPTH:VMID:CID, with commas between them.
std::map<uint32_t, Sizes> sizes_in(const std::string& list) {
  std::map<uint32_t, Sizes> own;
  std::istringstream rest(list);
  for (std::string word; std::getline(rest, word, ',');) {
    uint32_t id = 0;
    Sizes sizes;
    if (sscanf(word.c_str(), "%x:%u:%u:%u", &id, &sizes.depth, &sizes.vmid, &sizes.cid) != 4) stop("a list of settings is wrong");
    own[id] = sizes;
  }
  return own;
}

Words words_of(int count, char** given) {
  Words words;
  for (int i = 1; i < count; ++i) {
    const std::string word = given[i];
    const auto value = [&]() -> const char* {
      if (++i == count) stop("a word is missing");
      return given[i];
    };
    const auto number = [&] { return uint32_t(strtoul(value(), nullptr, 10)); };
    if (word == "--raw") words.raw = true;
    else if (word == "--count") words.count = true;
    else if (word == "--no-return-stack") words.return_stack = false;
    else if (word == "--depth") words.all.depth = number();
    else if (word == "--vmid") words.all.vmid = number();
    else if (word == "--cid") words.all.cid = number();
    else if (word == "--settings") words.own = sizes_in(value());
    else if (word.rfind("--", 0) == 0) stop("the word " + word + " has no meaning");
    else words.image = word;
  }
  if (words.image.empty()) stop("the image is missing");
  return words;
}

std::vector<Part> parts_of(const std::string& name) {
  std::vector<Part> parts;
  std::ifstream file(name);
  if (!file) stop("the image " + name + " can't be read");
  for (std::string line, word; std::getline(file, line);) {
    std::istringstream rest(line);
    while (rest >> word && word[0] != '#') {
      if (word[0] == '@') {
        parts.push_back({strtoull(word.c_str() + 1, nullptr, 16), {}});
        continue;
      }
      if (parts.empty()) stop("the image begins without an address");
      for (size_t i = 0; i + 1 < word.size(); i += 2)
        parts.back().bytes.push_back(uint8_t(strtoul(word.substr(i, 2).c_str(), nullptr, 16)));
    }
  }
  return parts;
}

// The registers of a unit with these sizes, with 64-bit addresses and timestamps, mostly a return stack, and nothing else (IHI 0064).
ocsd_etmv4_cfg unit_of(const Words& words, int id) {
  const auto own = words.own.find(uint32_t(id));
  const Sizes& sizes = own == words.own.end() ? words.all : own->second;
  ocsd_etmv4_cfg unit{};
  unit.reg_idr0 = words.return_stack << 9 | 8 << 24;          // RETSTACK; TSSIZE: 64 bits
  unit.reg_idr1 = 4 << 8 | 3 << 4;                           // ETMv4.3; of earlier ones OpenCSD takes no ignore packet
  unit.reg_idr2 = 8 | sizes.cid << 5 | sizes.vmid << 10;      // IASIZE: 64 bits; CIDSIZE; VMIDSIZE
  unit.reg_idr8 = sizes.depth;                                // MAXSPEC
  unit.reg_configr = (sizes.cid ? 1 << 6 : 0) | (sizes.vmid ? 1 << 7 : 0) | 1 << 11 | words.return_stack << 12;  // CID, VMID, TS, RS
  unit.reg_traceidr = uint32_t(id);
  unit.arch_ver = ARCH_V8r3;                                  // of earlier ones OpenCSD reads no pointer authentication
  unit.core_prof = profile_CortexA;
  return unit;
}

// One range of instructions, cut into single ones.
ocsd_datapath_resp_t take(const void* context, ocsd_trc_index_t, uint8_t id, const ocsd_generic_trace_elem* element) {
  Found& found = *static_cast<Found*>(const_cast<void*>(context));
  if (element->elem_type != OCSD_GEN_TRC_ELEM_INSTR_RANGE) return OCSD_RESP_CONT;
  found.instructions += element->num_instr_range;
  if (found.count) return OCSD_RESP_CONT;
  char line[32];
  for (uint64_t at = element->st_addr; at != element->en_addr; at += 4)
    found.text.append(line, size_t(snprintf(line, sizeof line, "%02x %" PRIx64 "\n", id, at)));
  if (found.text.size() >= kOutput) found.flush();
  return OCSD_RESP_CONT;
}

dcd_tree_handle_t tree_of(const Words& words, const std::vector<Part>& parts, Found& found) {
  must(ocsd_def_errlog_init(OCSD_ERR_SEV_ERROR, 0), "ocsd_def_errlog_init");
  const auto tree = ocsd_create_dcd_tree(words.raw ? OCSD_TRC_SRC_SINGLE : OCSD_TRC_SRC_FRAME_FORMATTED,
                                         words.raw ? 0 : OCSD_DFRMTR_FRAME_MEM_ALIGN);
  if (tree == C_API_INVALID_TREE_HANDLE) stop("ocsd_create_dcd_tree");
  for (int id = kFirstId; id <= (words.raw ? kFirstId : kLastId); ++id) {
    const ocsd_etmv4_cfg unit = unit_of(words, id);
    unsigned char given = 0;
    must(ocsd_dt_create_decoder(tree, OCSD_BUILTIN_DCD_ETMV4I, OCSD_CREATE_FLG_FULL_DECODER, &unit, &given),
         "ocsd_dt_create_decoder");
  }
  for (const Part& part : parts)
    if (!part.bytes.empty())
      must(ocsd_dt_add_buffer_mem_acc(tree, part.address, OCSD_MEM_SPACE_ANY, part.bytes.data(), uint32_t(part.bytes.size())),
           "ocsd_dt_add_buffer_mem_acc");
  must(ocsd_dt_set_gen_elem_outfn(tree, take, &found), "ocsd_dt_set_gen_elem_outfn");
  return tree;
}

// Decodes standard input.
void decode(dcd_tree_handle_t tree) {
  std::vector<uint8_t> piece(kPiece);
  uint64_t offset = 0;
  for (size_t count; (count = fread(piece.data(), 1, piece.size(), stdin)) > 0; offset += count) {
    for (size_t at = 0; at < count;) {
      uint32_t taken = 0;
      const auto answer =
          ocsd_dt_process_data(tree, OCSD_OP_DATA, offset + at, uint32_t(count - at), piece.data() + at, &taken);
      if (OCSD_DATA_RESP_IS_FATAL(answer) || taken == 0) return;
      at += taken;
    }
  }
  ocsd_dt_process_data(tree, OCSD_OP_EOT, 0, 0, nullptr, nullptr);
}

// Whether OpenCSD reported no error; the last one is told. Its answers to data don't tell of all.
bool is_good() {
  ocsd_trc_index_t index = 0;
  uint8_t id = 0;
  char message[512] = "";
  if (ocsd_get_last_err(&index, &id, message, sizeof message) == OCSD_OK) return true;
  fprintf(stderr, "opencsd_reader: %s\n", message);
  return false;
}

}  // namespace

int main(int count, char** given) {
  const Words words = words_of(count, given);
  const std::vector<Part> parts = parts_of(words.image);
  Found found;
  found.count = words.count;
  const auto tree = tree_of(words, parts, found);
  decode(tree);
  found.flush();
  if (words.count) printf("%" PRIu64 "\n", found.instructions);
  const bool good = is_good();
  ocsd_destroy_dcd_tree(tree);
  return good ? 0 : 1;
}
