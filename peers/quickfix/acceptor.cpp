// An exchange on QuickFIX for the dialect plain, or for what data dictionaries say: a session for each venue, all of
// them on one port of this machine. It answers each order by New, a Trade of --fill shares at most, and Canceled for
// what is left.
//
//   --port N          where it listens, on the loopback address
//   --venues A,B      the comp ids of its sessions
//   --peer ID         the comp id of the desk
//   --fill N          how many shares of an order it trades at most
//   --orders FILE     gets a line for each order that is taken: ClOrdID, comp id of the venue, MsgSeqNum, shares, when it
//                     was taken in microseconds since 1970; and then `ignored` if the order gets no report
//   --store FOLDER    keeps the numbers of the sessions, for an acceptor that is started again, and their messages
//   --drop-every N    drops a venue's connection behind each Nth message that it takes; 0 is never, as below
//   --ignore-every N  gives each Nth order of a venue no report
//   --test-every N    sends a TestRequest behind each Nth order of a venue
//   --dictionaries FOLDER   has a data dictionary for each venue, VENUE.xml: an order that it refuses gets a Reject
//
// It ends by SIGTERM, or after --seconds.
#include "options.hpp"

#include <quickfix/FileLog.h>
#include <quickfix/FileStore.h>
#include <quickfix/Session.h>
#include <quickfix/SocketAcceptor.h>
#include <quickfix/fix44/ExecutionReport.h>
#include <quickfix/fix44/TestRequest.h>

#include <arpa/inet.h>
#include <signal.h>
#include <sys/syscall.h>
#include <unistd.h>

#include <algorithm>
#include <chrono>
#include <fstream>
#include <iostream>
#include <sstream>

// QuickFIX listens on every address and has no setting for another. This stands before the C library's bind.
extern "C" int bind(int socket, const sockaddr* address, socklen_t size) noexcept {
  sockaddr_in loopback;
  if (address->sa_family == AF_INET) {
    loopback = *reinterpret_cast<const sockaddr_in*>(address);
    loopback.sin_addr.s_addr = htonl(INADDR_LOOPBACK);
    address = reinterpret_cast<const sockaddr*>(&loopback);
  }
  return int(syscall(SYS_bind, socket, address, size));
}

namespace {

using FIX::Session;
using FIX::SessionID;

struct Plan { const long fill, drop_every, ignore_every, test_every; const bool has_dictionaries; };

long microseconds() {
  using namespace std::chrono;
  return duration_cast<std::chrono::microseconds>(system_clock::now().time_since_epoch()).count();
}

bool is_due(long every, long count) { return every && count % every == 0; }

// What a venue has taken since the start.
struct Counts { long messages = 0, orders = 0; };

class Exchange : public FIX::NullApplication {
  const Plan plan_;
  std::ofstream orders_file_;
  std::map<SessionID, Counts> venues_;

  void count(const SessionID& session) {
    if (is_due(plan_.drop_every, ++venues_[session].messages)) Session::lookupSession(session)->disconnect();
  }

  void note(const FIX::Message& order, const SessionID& session, bool is_ignored) {
    orders_file_ << order.getField(11) << ' ' << session.getSenderCompID() << ' ' << order.getHeader().getField(34)
                 << ' ' << order.getField(38) << ' ' << microseconds() << (is_ignored ? " ignored" : "") << std::endl;
  }

  // The ids of an order and its reports are made of its ClOrdID, so that no acceptor gives one twice.
  void report(const FIX::Message& order, const SessionID& session, char type, char status, long traded, long filled,
              long open) const {
    const std::string id = order.getField(11);
    FIX44::ExecutionReport report(FIX::OrderID("O" + id), FIX::ExecID("E" + id + type), FIX::ExecType(type),
                                  FIX::OrdStatus(status), FIX::Side(order.getField(54)[0]), FIX::LeavesQty(open),
                                  FIX::CumQty(filled), FIX::AvgPx(0));
    report.setField(11, id);
    report.setField(55, order.getField(55));
    if (order.isSetField(65)) report.setField(65, order.getField(65));
    if (traded) {
      report.setField(32, std::to_string(traded));
      report.setField(31, order.getField(44));
    }
    Session::sendToTarget(report, session);  // without a connection it is kept under its number
  }

  void answer(const FIX::Message& order, const SessionID& session) const {
    const long shares = std::stol(order.getField(38)), filled = std::min(plan_.fill, shares);
    report(order, session, '0', '0', 0, 0, shares);
    if (filled) report(order, session, 'F', filled < shares ? '1' : '2', filled, filled, shares - filled);
    if (filled < shares) report(order, session, '4', '4', 0, filled, 0);
  }

  // A connection that is dropped within a Logon would end the logging on as well.
  void fromAdmin(const FIX::Message& message, const SessionID& session)
      throw(FIX::FieldNotFound, FIX::IncorrectDataFormat, FIX::IncorrectTagValue, FIX::RejectLogon) {
    if (message.getHeader().getField(35) != "A") count(session);
  }

  void fromApp(const FIX::Message& message, const SessionID& session)
      throw(FIX::FieldNotFound, FIX::IncorrectDataFormat, FIX::IncorrectTagValue, FIX::UnsupportedMessageType) {
    if (message.getHeader().getField(35) != "D") throw FIX::UnsupportedMessageType();
    if (!plan_.has_dictionaries && message.getField(18) != "f") throw FIX::IncorrectTagValue(18);
    if (message.getField(40) != "2") throw FIX::IncorrectTagValue(40);
    if (message.getField(59) != "3") throw FIX::IncorrectTagValue(59);
    const long orders = ++venues_[session].orders;
    const bool is_ignored = is_due(plan_.ignore_every, orders);
    note(message, session, is_ignored);
    count(session);
    if (!is_ignored) answer(message, session);
    if (is_due(plan_.test_every, orders)) {
      FIX44::TestRequest test(FIX::TestReqID("X" + std::to_string(orders)));
      Session::sendToTarget(test, session);
    }
  }

 public:
  Exchange(const Plan& plan, const std::string& orders) : plan_(plan), orders_file_(orders, std::ios::app) {
    if (!orders_file_) throw std::runtime_error("can't open " + orders);
  }
};

bool has_dictionaries(const Options& options) { return !options.text("--dictionaries").empty(); }

FIX::SessionSettings settings_of(const Options& options) {
  std::stringstream text;
  text << "[DEFAULT]\nConnectionType=acceptor\nBeginString=FIX.4.4\nTargetCompID=" << options.text("--peer")
       << "\nSocketAcceptPort=" << options.text("--port") << "\nFileStorePath=" << options.text("--store")
       << "\nFileLogPath=" << options.text("--store")
       << "\nSocketNodelay=Y\nSocketReuseAddress=Y\nStartTime=00:00:00\nEndTime=00:00:00\nResetOnLogon=N\n"
       << "ResetOnLogout=N\nResetOnDisconnect=N\nCheckLatency=N\nUseDataDictionary=N\n";
  std::stringstream venues(options.text("--venues"));
  for (std::string venue; std::getline(venues, venue, ',');) {
    text << "[SESSION]\nSenderCompID=" << venue << '\n';
    if (has_dictionaries(options)) {
      const std::string dictionary = options.text("--dictionaries") + "/" + venue + ".xml";
      text << "UseDataDictionary=Y\nValidateUserDefinedFields=Y\nDataDictionary=" << dictionary << '\n';
    }
  }
  return FIX::SessionSettings(text);
}

sigset_t ends() {
  sigset_t signals;
  sigemptyset(&signals);
  sigaddset(&signals, SIGTERM);
  return signals;
}

void serve(const Options& options) {
  const sigset_t signals = ends();
  sigprocmask(SIG_BLOCK, &signals, nullptr);
  signal(SIGPIPE, SIG_IGN);
  const FIX::SessionSettings settings = settings_of(options);
  Exchange exchange({options.number("--fill"), options.number("--drop-every"), options.number("--ignore-every"),
                     options.number("--test-every"), has_dictionaries(options)}, options.text("--orders"));
  FIX::FileStoreFactory store(settings);
  FIX::FileLogFactory log(settings);
  FIX::SocketAcceptor acceptor(exchange, store, settings, log);
  acceptor.start();
  std::cout << "listening" << std::endl;
  const timespec most{options.number("--seconds"), 0};
  sigtimedwait(&signals, nullptr, &most);
  acceptor.stop(true);
}

}  // namespace

int main(int count, char** words) {
  try {
    serve(Options(count, words,
                  {{"--port", ""}, {"--venues", ""}, {"--peer", ""}, {"--fill", "6"}, {"--orders", ""}, {"--store", ""},
                   {"--drop-every", "0"}, {"--ignore-every", "0"}, {"--test-every", "0"}, {"--dictionaries", ""},
                   {"--seconds", "600"}}));
  } catch (const std::exception& fault) {
    std::cerr << fault.what() << std::endl;
    return 2;
  }
}
