// A desk on QuickFIX for the dialect plain, with one session: it sends an immediate-or-cancel order at each beat, whether
// the session is up or not, as `Session::sendToTarget` allows, and lets the engine do the rest.
//
//   --port N          where the exchange listens, on the loopback address
//   --venue ID        the comp id of the exchange
//   --me ID           the comp id of the desk
//   --orders N        how many orders it sends
//   --pause N         microseconds from one to the next
//   --sent FILE       gets a line for each order: ClOrdID, microseconds since 1970 when it was handed in
//   --on-resend WORD  what it does where the exchange asks for an order again: `send` it, as QuickFIX does by itself, or
//                     `skip` it, by the exception DoNotSend, so that the engine fills its number over
//   --persist WORD    the engine's setting PersistMessages, `Y` or `N`; without its messages it fills all numbers over
//   --only-up WORD    whether it sends orders only while it is logged on: `yes` or `no`
//   --wait N          seconds that it waits for reports at the end
#include "options.hpp"

#include <quickfix/MessageStore.h>
#include <quickfix/Session.h>
#include <quickfix/SocketInitiator.h>
#include <quickfix/fix44/NewOrderSingle.h>

#include <signal.h>

#include <atomic>
#include <chrono>
#include <fstream>
#include <iostream>
#include <sstream>
#include <thread>

namespace {

using Clock = std::chrono::system_clock;

class Desk : public FIX::NullApplication {
  const bool skips_;

  void onLogon(const FIX::SessionID&) { is_up = true; }
  void onLogout(const FIX::SessionID&) { is_up = false; }
  void toApp(FIX::Message& message, const FIX::SessionID&) throw(FIX::DoNotSend) {
    FIX::PossDupFlag again(false);
    message.getHeader().getFieldIfSet(again);
    if (skips_ && again.getValue()) throw FIX::DoNotSend();
  }
  void fromApp(const FIX::Message& message, const FIX::SessionID&)
      throw(FIX::FieldNotFound, FIX::IncorrectDataFormat, FIX::IncorrectTagValue, FIX::UnsupportedMessageType) {
    if (message.getField(150) == "4") ++ended;
  }

 public:
  std::atomic<bool> is_up{false};
  // The orders whose rest was cancelled, which is the last report on each.
  std::atomic<long> ended{0};
  explicit Desk(bool skips) : skips_(skips) {}
};

FIX44::NewOrderSingle order_of(const std::string& id) {
  FIX44::NewOrderSingle order;
  order.set(FIX::ClOrdID(id));
  order.set(FIX::ExecInst("f"));
  order.set(FIX::OrderQty(10));
  order.set(FIX::OrdType(FIX::OrdType_LIMIT));
  order.set(FIX::Price(10));
  order.set(FIX::Side(FIX::Side_BUY));
  order.set(FIX::Symbol("IBM"));
  order.set(FIX::TimeInForce(FIX::TimeInForce_IMMEDIATE_OR_CANCEL));
  order.set(FIX::TransactTime(FIX::UtcTimeStamp(), 3));
  return order;
}

FIX::SessionSettings settings_of(const Options& options) {
  std::stringstream text;
  text << "[DEFAULT]\nConnectionType=initiator\nBeginString=FIX.4.4\nSenderCompID=" << options.text("--me")
       << "\nSocketConnectHost=127.0.0.1\nSocketConnectPort=" << options.text("--port")
       << "\nSocketNodelay=Y\nStartTime=00:00:00\nEndTime=00:00:00\nHeartBtInt=30\nReconnectInterval=1\nResetOnLogon=N\n"
       << "ResetOnLogout=N\nResetOnDisconnect=N\nUseDataDictionary=N\nPersistMessages=" << options.text("--persist")
       << "\n[SESSION]\nTargetCompID=" << options.text("--venue") << '\n';
  return FIX::SessionSettings(text);
}

void wait_until_up(const Desk& desk) {
  for (int i = 0; !desk.is_up; ++i) {
    if (i == 10000) throw std::runtime_error("no logon");
    std::this_thread::sleep_for(std::chrono::milliseconds(1));
  }
}

// Sends an order at each beat, and writes down when it was handed in; how many it sent.
long send_all(const Options& options, const Desk& desk, const FIX::SessionID& session) {
  std::ofstream sent(options.text("--sent"));
  const bool only_up = options.text("--only-up") == "yes";
  auto beat = std::chrono::steady_clock::now();
  long count = 0;
  for (long i = 1; i <= options.number("--orders"); ++i) {
    std::this_thread::sleep_until(beat += std::chrono::microseconds(options.number("--pause")));
    if (only_up && !desk.is_up) continue;
    const std::string id = "S" + std::to_string(i) + "L1";
    const auto now = std::chrono::duration_cast<std::chrono::microseconds>(Clock::now().time_since_epoch());
    sent << id << ' ' << now.count() << '\n';
    FIX44::NewOrderSingle order = order_of(id);
    FIX::Session::sendToTarget(order, session);
    ++count;
  }
  return count;
}

void trade(const Options& options) {
  const FIX::SessionSettings settings = settings_of(options);
  Desk desk(options.text("--on-resend") == "skip");
  FIX::MemoryStoreFactory store;
  FIX::SocketInitiator engine(desk, store, settings);
  engine.start();
  wait_until_up(desk);
  const long count = send_all(options, desk, {"FIX.4.4", options.text("--me"), options.text("--venue")});
  for (long i = 0; desk.ended < count && i < options.number("--wait") * 1000; ++i)
    std::this_thread::sleep_for(std::chrono::milliseconds(1));
  std::cout << "handed in " << count << ", ended " << desk.ended << std::endl;
  engine.stop();
}

}  // namespace

int main(int count, char** words) {
  try {
    signal(SIGPIPE, SIG_IGN);
    trade(Options(count, words,
                  {{"--port", ""}, {"--venue", ""}, {"--me", "DESK"}, {"--orders", "4000"}, {"--pause", "1000"},
                   {"--sent", ""}, {"--persist", "Y"}, {"--on-resend", "send"}, {"--only-up", "no"}, {"--wait", "10"}}));
  } catch (const std::exception& fault) {
    std::cerr << fault.what() << std::endl;
    return 2;
  }
}
