// Makes, prints and searches tables by LevelDB itself, in the line format of `table_rows`.
//
//   rows make FILE BLOCK_SIZE RESTARTS COMPRESSION SEPARATORS < lines
//   rows print FILE
//   rows find FILE < keys
//
// COMPRESSION is `plain` or `snappy`; SEPARATORS is `short` (LevelDB's own index keys) or `last`
// (an index key is the last key of its block). Sums are verified on every read.
#include <leveldb/comparator.h>
#include <leveldb/env.h>
#include <leveldb/iterator.h>
#include <leveldb/options.h>
#include <leveldb/table.h>
#include <leveldb/table_builder.h>

#include <cstdio>
#include <cstdlib>
#include <cstring>
#include <iostream>
#include <memory>
#include <string>

namespace {

// Keys by bytes, as LevelDB's own comparator has them, but index keys are not shortened.
class LastKeys : public leveldb::Comparator {
 public:
  int Compare(const leveldb::Slice& a, const leveldb::Slice& b) const override { return a.compare(b); }
  const char* Name() const override { return "last keys"; }
  void FindShortestSeparator(std::string*, const leveldb::Slice&) const override {}
  void FindShortSuccessor(std::string*) const override {}
};

void check(const leveldb::Status& status) {
  if (!status.ok()) {
    std::cerr << "rows: " << status.ToString() << "\n";
    std::exit(1);
  }
}

int digit(char letter) { return letter <= '9' ? letter - '0' : letter - 'a' + 10; }

std::string decoded(const char* text, size_t size) {
  std::string bytes(size / 2, '\0');
  for (size_t i = 0; i < size / 2; i++) bytes[i] = char(digit(text[2 * i]) * 16 + digit(text[2 * i + 1]));
  return bytes;
}

void print(std::string& out, const leveldb::Slice& bytes) {
  static const char digits[] = "0123456789abcdef";
  for (size_t i = 0; i < bytes.size(); i++) {
    out += digits[static_cast<unsigned char>(bytes[i]) >> 4];
    out += digits[bytes[i] & 15];
  }
}

int make(char** words) {
  LastKeys last;
  leveldb::Options options;
  options.block_size = std::strtoul(words[3], nullptr, 10);
  options.block_restart_interval = std::atoi(words[4]);
  options.compression = std::strcmp(words[5], "snappy") == 0 ? leveldb::kSnappyCompression : leveldb::kNoCompression;
  if (std::strcmp(words[6], "last") == 0) options.comparator = &last;
  leveldb::WritableFile* raw;
  check(leveldb::Env::Default()->NewWritableFile(words[2], &raw));
  std::unique_ptr<leveldb::WritableFile> file(raw);
  leveldb::TableBuilder builder(options, file.get());
  std::string line;
  while (std::getline(std::cin, line)) {
    size_t space = line.find(' ');
    builder.Add(decoded(line.data(), space), decoded(line.data() + space + 1, line.size() - space - 1));
  }
  check(builder.Finish());
  check(file->Close());
  return 0;
}

int with_table(char** words, bool all) {
  leveldb::Env* env = leveldb::Env::Default();
  leveldb::Options options;
  options.paranoid_checks = true;
  leveldb::RandomAccessFile* raw;
  uint64_t size;
  check(env->GetFileSize(words[2], &size));
  check(env->NewRandomAccessFile(words[2], &raw));
  std::unique_ptr<leveldb::RandomAccessFile> file(raw);
  leveldb::Table* table_raw;
  check(leveldb::Table::Open(options, file.get(), size, &table_raw));
  std::unique_ptr<leveldb::Table> table(table_raw);
  leveldb::ReadOptions reading;
  reading.verify_checksums = true;
  std::unique_ptr<leveldb::Iterator> rows(table->NewIterator(reading));
  std::string out, line;
  if (all) {
    for (rows->SeekToFirst(); rows->Valid(); rows->Next()) {
      print(out, rows->key());
      out += ' ';
      print(out, rows->value());
      out += '\n';
      if (out.size() > 60000) {
        std::fwrite(out.data(), 1, out.size(), stdout);
        out.clear();
      }
    }
  } else {
    while (std::getline(std::cin, line)) {
      std::string key = decoded(line.data(), line.size());
      rows->Seek(key);
      if (rows->Valid() && rows->key() == leveldb::Slice(key)) {
        print(out, rows->value());
      } else {
        out += '-';
      }
      out += '\n';
      if (out.size() > 60000) {
        std::fwrite(out.data(), 1, out.size(), stdout);
        out.clear();
      }
    }
  }
  check(rows->status());
  std::fwrite(out.data(), 1, out.size(), stdout);
  return 0;
}

}  // namespace

int main(int count, char** words) {
  std::ios::sync_with_stdio(false);
  if (count == 7 && std::strcmp(words[1], "make") == 0) return make(words);
  if (count == 3 && std::strcmp(words[1], "print") == 0) return with_table(words, true);
  if (count == 3 && std::strcmp(words[1], "find") == 0) return with_table(words, false);
  std::cerr << "rows: usage: rows make FILE BLOCK_SIZE RESTARTS plain|snappy short|last, rows print FILE, rows find FILE\n";
  return 2;
}
