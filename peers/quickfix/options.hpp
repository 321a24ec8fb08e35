// What the programs of this folder share: the options of a command line.
#pragma once
#include <map>
#include <stdexcept>
#include <string>
#include <utility>

// Each option has to be named in `values` with what it is where the line hasn't it.
class Options {
  std::map<std::string, std::string> values_;

 public:
  Options(int count, char** words, std::map<std::string, std::string> values) : values_(std::move(values)) {
    for (int i = 1; i < count; i += 2) {
      if (!values_.count(words[i]) || i + 1 == count) throw std::runtime_error(std::string("bad option ") + words[i]);
      values_[words[i]] = words[i + 1];
    }
  }
  const std::string& text(const std::string& name) const { return values_.at(name); }
  long number(const std::string& name) const { return std::stol(values_.at(name)); }
};
