// A desk on QuickFIX for the dialect plain behind the door of `dispatch run`: it reads lines of sweeps, as `sweep V0 IBM buy
// 10 10 + V1 IBM buy 10 10`, and sends each leg to its venue by `Session::sendToTarget` before it answers the line. It reads
// what is reported, and keeps its messages in memory, as the engine needs them to send one again.
//
//   --port N          where the first exchange listens, on the loopback address; the next one listens on the next port
//   --venues N        how many there are: V0, V1 ..
//   --threaded WORD   whether each session has a thread of its own: `yes` or `no`
//
// It says `up` on standard error once all sessions are, and ends with its input.
#include "options.hpp"

#include <quickfix/MessageStore.h>
#include <quickfix/Session.h>
#include <quickfix/SocketInitiator.h>
#include <quickfix/ThreadedSocketInitiator.h>
#include <quickfix/fix44/NewOrderSingle.h>

#include <signal.h>

#include <atomic>
#include <chrono>
#include <cstdlib>
#include <cstring>
#include <iostream>
#include <memory>
#include <sstream>
#include <thread>
#include <vector>

namespace {

class Desk : public FIX::NullApplication {
  void onLogon(const FIX::SessionID&) { ++up; }
  void fromApp(const FIX::Message& report, const FIX::SessionID&)
      throw(FIX::FieldNotFound, FIX::IncorrectDataFormat, FIX::IncorrectTagValue, FIX::UnsupportedMessageType) {
    if (report.getField(150) == "F") filled += std::stol(report.getField(32));
  }

 public:
  std::atomic<long> up{0}, filled{0};
};

FIX::SessionSettings settings_of(const Options& options) {
  std::stringstream text;
  text << "[DEFAULT]\nConnectionType=initiator\nSocketConnectHost=127.0.0.1\nSocketNodelay=Y\nStartTime=00:00:00\n"
       << "EndTime=00:00:00\nHeartBtInt=30\nReconnectInterval=1\nUseDataDictionary=N\nBeginString=FIX.4.4\n"
       << "SenderCompID=DESK\n";
  for (long venue = 0; venue < options.number("--venues"); ++venue)
    text << "[SESSION]\nTargetCompID=V" << venue << "\nSocketConnectPort=" << options.number("--port") + venue << '\n';
  return FIX::SessionSettings(text);
}

const char* word(char* text = nullptr) {
  const char* it = std::strtok(text, " ");
  return it ? it : "";
}

// Reads a leg, VENUE SYMBOL SIDE SHARES PRICE, and sends its order; how many shares it has.
long send_leg(const std::string& id) {
  const std::string venue = word();
  FIX44::NewOrderSingle order;
  order.set(FIX::ClOrdID(id));
  order.set(FIX::ExecInst("f"));
  order.set(FIX::Symbol(word()));
  order.set(FIX::Side(*word() == 'b' ? FIX::Side_BUY : FIX::Side_SELL));
  const long shares = std::atol(word());
  order.set(FIX::OrderQty(double(shares)));
  order.set(FIX::OrdType(FIX::OrdType_LIMIT));
  order.set(FIX::Price(std::atof(word())));
  order.set(FIX::TimeInForce(FIX::TimeInForce_IMMEDIATE_OR_CANCEL));
  order.set(FIX::TransactTime(FIX::UtcTimeStamp(), 3));
  FIX::Session::sendToTarget(order, {"FIX.4.4", "DESK", venue});
  return shares;
}

void take_lines() {
  std::string line;
  for (long sweep = 1; std::getline(std::cin, line); ++sweep) {
    if (std::strcmp(word(&line[0]), "sweep")) throw std::runtime_error("bad line");
    const std::string name = "S" + std::to_string(sweep) + "L";
    long shares = 0;
    for (int leg = 1; leg == 1 || *word() == '+'; ++leg) shares += send_leg(name + std::to_string(leg));
    std::cout << "placed " << sweep << " shares " << shares << std::endl;
  }
}

void trade(const Options& options) {
  const FIX::SessionSettings settings = settings_of(options);
  Desk desk;
  FIX::MemoryStoreFactory store;
  std::unique_ptr<FIX::Initiator> engine;
  if (options.text("--threaded") == "yes") engine.reset(new FIX::ThreadedSocketInitiator(desk, store, settings));
  else engine.reset(new FIX::SocketInitiator(desk, store, settings));
  engine->start();
  while (desk.up < options.number("--venues")) std::this_thread::sleep_for(std::chrono::milliseconds(1));
  std::cerr << "up" << std::endl;
  take_lines();
  engine->stop();
}

}  // namespace

int main(int count, char** words) {
  try {
    std::ios::sync_with_stdio(false);
    signal(SIGPIPE, SIG_IGN);
    trade(Options(count, words, {{"--port", ""}, {"--venues", "1"}, {"--threaded", "no"}}));
  } catch (const std::exception& fault) {
    std::cerr << fault.what() << std::endl;
    return 2;
  }
}
