// Loads servers that speak the client protocol of ZooKeeper, and prints what they did as tables in Markdown.
//
//     load [--seconds N] [--rounds N] [--memory N] NAME=HOST:PORT[,PROCESS=PID..]..
//
// For each server, with 1 connection of 1 open request and with 64 connections of 16 each: getData and setData of 1 KiB, create and
// delete of nodes with 100 bytes. Each is done for so many seconds (delete until all is gone) and so many rounds, of which the one
// with the most requests a second is printed: with the median and the 99th percentile of the time from a request's write to its
// answer, and the processor time that each named process took a request. Then how long an event takes, from the write of a setData
// on one connection to the event on another; and the resident memory of each process before and after so many setData.
//
// One thread does all of it. It ends with status 1 where a server answers anything that was not asked.

#include <algorithm>
#include <arpa/inet.h>
#include <cerrno>
#include <chrono>
#include <cstdint>
#include <cstdio>
#include <cstdlib>
#include <cstring>
#include <deque>
#include <fcntl.h>
#include <fstream>
#include <functional>
#include <netdb.h>
#include <netinet/in.h>
#include <netinet/tcp.h>
#include <sstream>
#include <stdexcept>
#include <string>
#include <sys/epoll.h>
#include <sys/socket.h>
#include <unistd.h>
#include <utility>
#include <vector>

namespace {

using Clock = std::chrono::steady_clock;
using Time = Clock::time_point;

double seconds_between(Time begin, Time end) { return std::chrono::duration<double>(end - begin).count(); }

[[noreturn]] void fail(const std::string &what) { throw std::runtime_error(what); }

[[noreturn]] void fail_by_system(const std::string &what) { fail(what + ": " + std::strerror(errno)); }

// Bytes of the protocol: numbers are big-endian, texts and buffers have their length before them.

void put_int(std::string &into, std::int32_t value) {
  for (int shift = 24; shift >= 0; shift -= 8) into.push_back(static_cast<char>(static_cast<std::uint32_t>(value) >> shift));
}

void put_long(std::string &into, std::int64_t value) {
  put_int(into, static_cast<std::int32_t>(value >> 32));
  put_int(into, static_cast<std::int32_t>(value));
}

void put_text(std::string &into, const std::string &text) {
  put_int(into, static_cast<std::int32_t>(text.size()));
  into += text;
}

std::int32_t int_at(const char *bytes) {
  std::uint32_t value = 0;
  for (int place = 0; place < 4; ++place) value = value << 8 | static_cast<unsigned char>(bytes[place]);
  return static_cast<std::int32_t>(value);
}

constexpr std::int32_t CREATE = 1, DELETE = 2, GET = 4, SET = 5, CLOSE = -11;
constexpr std::int32_t NODE_EXISTS = -110;
constexpr std::int32_t EVENT_XID = -1;
constexpr std::size_t FRAME_LIMIT = 16 << 20;
constexpr int ANSWER_LIMIT = 20; // seconds

void put_open_acl(std::string &into) {
  put_int(into, 1);
  put_int(into, 31);
  put_text(into, "world");
  put_text(into, "anyone");
}

// A request's frame, its body made of what `fields` appends.
template <class Fields> std::string frame(std::int32_t xid, std::int32_t kind, Fields fields) {
  std::string body;
  put_int(body, xid);
  put_int(body, kind);
  fields(body);
  std::string whole;
  put_text(whole, body);
  return whole;
}

std::string create(std::int32_t xid, const std::string &path, const std::string &content) {
  return frame(xid, CREATE, [&](std::string &body) {
    put_text(body, path);
    put_text(body, content);
    put_open_acl(body);
    put_int(body, 0);
  });
}

std::string remove(std::int32_t xid, const std::string &path) {
  return frame(xid, DELETE, [&](std::string &body) {
    put_text(body, path);
    put_int(body, -1);
  });
}

std::string get(std::int32_t xid, const std::string &path, bool watch) {
  return frame(xid, GET, [&](std::string &body) {
    put_text(body, path);
    body.push_back(watch ? 1 : 0);
  });
}

std::string set(std::int32_t xid, const std::string &path, const std::string &content) {
  return frame(xid, SET, [&](std::string &body) {
    put_text(body, path);
    put_text(body, content);
    put_int(body, -1);
  });
}

std::string connect_frame() {
  std::string body;
  put_int(body, 0);
  put_long(body, 0);
  put_int(body, 30000);
  put_long(body, 0);
  put_text(body, std::string(16, '\0'));
  body.push_back(0);
  std::string whole;
  put_text(whole, body);
  return whole;
}

struct Server {
  std::string name, host, port;
  std::vector<std::pair<std::string, int>> processes;
};

int open_socket(const Server &server) {
  addrinfo hints{}, *found = nullptr;
  hints.ai_socktype = SOCK_STREAM;
  if (getaddrinfo(server.host.c_str(), server.port.c_str(), &hints, &found) != 0) fail("no address " + server.host);
  int fd = socket(found->ai_family, SOCK_STREAM | SOCK_CLOEXEC, 0);
  if (fd < 0 || connect(fd, found->ai_addr, found->ai_addrlen) != 0) fail_by_system("no connection to " + server.name);
  freeaddrinfo(found);
  int on = 1;
  setsockopt(fd, IPPROTO_TCP, TCP_NODELAY, &on, sizeof on);
  return fd;
}

// A connection with a session. Requests are answered in their order, and each answer is checked against what was asked.
class Connection {
public:
  Connection(const Server &server, int number) : fd_(open_socket(server)), number_(number) {
    send_now(connect_frame());
    read_frame_now();
    if (fcntl(fd_, F_SETFL, O_NONBLOCK) != 0) fail_by_system("fcntl");
  }
  Connection(const Connection &) = delete;
  Connection &operator=(const Connection &) = delete;
  // Ends the session, if the request can be written.
  ~Connection() {
    std::string whole = frame(next_xid(), CLOSE, [](std::string &) {});
    (void)!send(fd_, whole.data(), whole.size(), MSG_NOSIGNAL);
    close(fd_);
  }

  int fd() const { return fd_; }
  int number() const { return number_; }
  std::size_t open() const { return open_.size(); }
  std::int32_t next_xid() { return next_xid_++; }

  // Adds a request to what is to be written. `allowed` is an error code that may come.
  void add(std::int32_t xid, const std::string &whole, std::int32_t allowed = 0) {
    out_ += whole;
    open_.push_back({xid, Clock::now(), allowed});
  }

  // Writes what can be written, and says whether something is left.
  bool flush() {
    while (written_ < out_.size()) {
      ssize_t count = send(fd_, out_.data() + written_, out_.size() - written_, MSG_NOSIGNAL);
      if (count < 0 && (errno == EAGAIN || errno == EINTR)) break;
      if (count < 0) fail_by_system("write");
      written_ += static_cast<std::size_t>(count);
    }
    if (written_ == out_.size()) {
      out_.clear();
      written_ = 0;
    }
    return !out_.empty();
  }

  // Reads what is there; tells of each answer how long it took, and of each event.
  template <class Told, class Event> void hear(Told told, Event event) {
    char piece[1 << 16];
    ssize_t count = recv(fd_, piece, sizeof piece, 0);
    if (count == 0) fail("the server ended a connection");
    if (count < 0 && (errno == EAGAIN || errno == EINTR)) return;
    if (count < 0) fail_by_system("read");
    in_.append(piece, static_cast<std::size_t>(count));
    Time now = Clock::now();
    std::size_t place = 0;
    while (in_.size() - place >= 4) {
      std::int32_t length = int_at(in_.data() + place);
      if (length < 16 || static_cast<std::size_t>(length) > FRAME_LIMIT) fail("a frame of a bad length");
      if (in_.size() - place - 4 < static_cast<std::size_t>(length)) break;
      take(in_.data() + place + 4, now, told, event);
      place += 4 + static_cast<std::size_t>(length);
    }
    in_.erase(0, place);
  }

private:
  struct Open {
    std::int32_t xid;
    Time begin;
    std::int32_t allowed;
  };

  template <class Told, class Event> void take(const char *body, Time now, Told told, Event event) {
    std::int32_t xid = int_at(body), code = int_at(body + 12);
    if (xid == EVENT_XID) {
      event();
      return;
    }
    if (open_.empty() || open_.front().xid != xid) fail("an answer to nothing that was asked");
    Open asked = open_.front();
    open_.pop_front();
    if (code != 0 && code != asked.allowed) fail("an error " + std::to_string(code));
    told(seconds_between(asked.begin, now));
  }

  void send_now(const std::string &bytes) {
    if (send(fd_, bytes.data(), bytes.size(), MSG_NOSIGNAL) != static_cast<ssize_t>(bytes.size())) fail_by_system("connect");
  }

  void read_frame_now() {
    char body[64];
    if (recv(fd_, body, 4, MSG_WAITALL) != 4) fail("no answer to a connect");
    std::int32_t length = int_at(body);
    if (length < 36 || length > 64 || recv(fd_, body, static_cast<std::size_t>(length), MSG_WAITALL) != length) {
      fail("a bad answer to a connect");
    }
    if (int_at(body + 4) == 0) fail("no session");
  }

  int fd_, number_;
  std::int32_t next_xid_ = 1;
  std::string out_, in_;
  std::size_t written_ = 0;
  std::deque<Open> open_;
};

using Connections = std::deque<Connection>;

// Processor time and memory of processes.

double processor_seconds(int pid) {
  std::ifstream file("/proc/" + std::to_string(pid) + "/stat");
  std::string text((std::istreambuf_iterator<char>(file)), {});
  auto end = text.rfind(')');
  if (end == std::string::npos) return 0;
  std::istringstream fields(text.substr(end + 1));
  std::string skipped;
  for (int field = 3; field < 14; ++field) fields >> skipped;
  double user = 0, system = 0;
  fields >> user >> system;
  return (user + system) / static_cast<double>(sysconf(_SC_CLK_TCK));
}

long resident_kib(int pid) {
  std::ifstream file("/proc/" + std::to_string(pid) + "/status");
  for (std::string line; std::getline(file, line);) {
    if (line.rfind("VmRSS:", 0) == 0) return std::atol(line.c_str() + 6);
  }
  return 0;
}

std::vector<double> processor_times(const Server &server) {
  std::vector<double> times;
  for (const auto &process : server.processes) times.push_back(processor_seconds(process.second));
  return times;
}

// What a run of requests came to.
struct Result {
  double seconds = 0;
  std::vector<double> latencies;
  std::vector<double> processor;

  double rate() const { return seconds > 0 ? static_cast<double>(latencies.size()) / seconds : 0; }
  double at(double share) {
    if (latencies.empty()) return 0;
    auto index = std::min(latencies.size() - 1, static_cast<std::size_t>(share * static_cast<double>(latencies.size())));
    std::nth_element(latencies.begin(), latencies.begin() + static_cast<std::ptrdiff_t>(index), latencies.end());
    return latencies[index];
  }
};

// Adds the next request of a connection; false where it has none.
using Next = std::function<bool(Connection &)>;

// Waits for what connections can read or write.
class Poll {
public:
  Poll() : fd_(epoll_create1(EPOLL_CLOEXEC)) {
    if (fd_ < 0) fail_by_system("epoll_create1");
  }
  Poll(const Poll &) = delete;
  Poll &operator=(const Poll &) = delete;
  ~Poll() { close(fd_); }

  void set(int how, Connection &connection, bool writes) {
    epoll_event wanted{};
    wanted.events = writes ? EPOLLIN | EPOLLOUT : EPOLLIN;
    wanted.data.ptr = &connection;
    if (epoll_ctl(fd_, how, connection.fd(), &wanted) != 0) fail_by_system("epoll_ctl");
  }

  template <class Ready> void wait(Ready ready) {
    epoll_event events[64];
    int count = epoll_wait(fd_, events, 64, ANSWER_LIMIT * 1000);
    if (count < 0 && errno != EINTR) fail_by_system("epoll_wait");
    if (count == 0) fail("no answer for " + std::to_string(ANSWER_LIMIT) + " s");
    for (int index = 0; index < count; ++index) ready(*static_cast<Connection *>(events[index].data.ptr), events[index].events);
  }

private:
  int fd_;
};

// Keeps `open` requests under way on each connection, until none has a next one and all are answered.
Result drive(const Server &server, Connections &connections, std::size_t open, const Next &next) {
  Result result;
  Poll poll;
  std::size_t under_way = 0;
  auto fill = [&](Connection &connection, int how) {
    while (connection.open() < open && next(connection)) ++under_way;
    poll.set(how, connection, connection.flush());
  };
  std::vector<double> before = processor_times(server);
  Time begin = Clock::now();
  for (Connection &connection : connections) fill(connection, EPOLL_CTL_ADD);
  while (under_way > 0) {
    poll.wait([&](Connection &connection, std::uint32_t events) {
      if (events & ~static_cast<std::uint32_t>(EPOLLOUT)) {
        connection.hear(
            [&](double took) {
              result.latencies.push_back(took);
              --under_way;
            },
            [] {});
      }
      fill(connection, EPOLL_CTL_MOD);
    });
  }
  result.seconds = seconds_between(begin, Clock::now());
  std::vector<double> after = processor_times(server);
  for (std::size_t index = 0; index < before.size(); ++index) result.processor.push_back(after[index] - before[index]);
  return result;
}

struct Settings {
  double seconds = 2;
  int rounds = 3;
  long memory = 0;
};

// Requests as long as the time lasts.
Next while_time_lasts(double seconds, std::function<void(Connection &)> add) {
  Time end = Clock::now() + std::chrono::duration_cast<Clock::duration>(std::chrono::duration<double>(seconds));
  return [=](Connection &connection) {
    if (Clock::now() >= end) return false;
    add(connection);
    return true;
  };
}

// The connection's own node of a name, at the top of the tree.
std::string node(const Connection &connection, const std::string &name) {
  return "/load-" + name + "-" + std::to_string(connection.number());
}

void make_nodes(const Server &server, Connections &connections, const std::string &name, std::size_t size) {
  std::vector<bool> made(connections.size());
  drive(server, connections, 1, [&](Connection &connection) {
    if (made[connection.number()]) return false;
    made[connection.number()] = true;
    std::int32_t xid = connection.next_xid();
    connection.add(xid, create(xid, node(connection, name), std::string(size, 'c')), NODE_EXISTS);
    return true;
  });
}

std::string shape(std::size_t connections, std::size_t open) { return std::to_string(connections) + " × " + std::to_string(open); }

void print_head(const Server &server) {
  std::printf("\n| %s | Connections × open requests | Requests a second | Median | 99th percentile |", server.name.c_str());
  for (const auto &process : server.processes) std::printf(" Processor time of the %s a request |", process.first.c_str());
  std::printf("\n|---|---|---|---|---|");
  for (std::size_t index = 0; index < server.processes.size(); ++index) std::printf("---|");
  std::printf("\n");
}

void print_row(const std::string &what, const std::string &shape, Result &result) {
  std::printf("| %s | %s | %.0f | %.0f µs | %.0f µs |", what.c_str(), shape.c_str(), result.rate(), result.at(0.5) * 1e6, result.at(0.99) * 1e6);
  for (double seconds : result.processor) std::printf(" %.1f µs |", seconds * 1e6 / static_cast<double>(result.latencies.size()));
  std::printf("\n");
  std::fflush(stdout);
}

void keep_best(Result &best, Result &&other) {
  if (other.rate() > best.rate()) best = std::move(other);
}

// One server under so many connections with so many open requests each.
void measure(const Server &server, const Settings &settings, int count, std::size_t open) {
  Connections connections;
  for (int number = 0; number < count; ++number) connections.emplace_back(server, number);
  const std::string content(1024, 'd'), small(100, 's');
  Result gets, sets, creates, removes;
  make_nodes(server, connections, "content", content.size());
  make_nodes(server, connections, "parent", 0);
  for (int round = 0; round < settings.rounds; ++round) {
    keep_best(gets, drive(server, connections, open, while_time_lasts(settings.seconds, [&](Connection &connection) {
      std::int32_t xid = connection.next_xid();
      connection.add(xid, get(xid, node(connection, "content"), false));
    })));
    keep_best(sets, drive(server, connections, open, while_time_lasts(settings.seconds, [&](Connection &connection) {
      std::int32_t xid = connection.next_xid();
      connection.add(xid, set(xid, node(connection, "content"), content));
    })));
    std::vector<long> made(connections.size()), gone(connections.size());
    auto below = [&](const Connection &connection, long number) {
      return node(connection, "parent") + "/" + std::to_string(number);
    };
    keep_best(creates, drive(server, connections, open, while_time_lasts(settings.seconds, [&](Connection &connection) {
      std::int32_t xid = connection.next_xid();
      connection.add(xid, create(xid, below(connection, made[connection.number()]++), small));
    })));
    keep_best(removes, drive(server, connections, open, [&](Connection &connection) {
      int number = connection.number();
      if (gone[number] == made[number]) return false;
      std::int32_t xid = connection.next_xid();
      connection.add(xid, remove(xid, below(connection, gone[number]++)));
      return true;
    }));
  }
  print_row("`getData` of 1 KiB", shape(connections.size(), open), gets);
  print_row("`setData` of 1 KiB", shape(connections.size(), open), sets);
  print_row("`create` with 100 bytes", shape(connections.size(), open), creates);
  print_row("`delete` of these", shape(connections.size(), open), removes);
}

// How long events take: one connection watches a node, another changes it.
void measure_events(const Server &server, const Settings &settings) {
  Connections pair;
  pair.emplace_back(server, 0);
  pair.emplace_back(server, 1);
  Connection &watching = pair[0], &changing = pair[1];
  make_nodes(server, pair, "watched", 0);
  const std::string path = node(watching, "watched");
  Poll poll;
  for (Connection &connection : pair) poll.set(EPOLL_CTL_ADD, connection, false);
  Result result;
  Time end = Clock::now() + std::chrono::milliseconds(static_cast<long>(settings.seconds * 1000 * settings.rounds));
  do {
    std::int32_t xid = watching.next_xid();
    watching.add(xid, get(xid, path, true));
    watching.flush();
    while (watching.open() > 0) poll.wait([](Connection &connection, std::uint32_t) { connection.hear([](double) {}, [] {}); });
    bool seen = false;
    xid = changing.next_xid();
    Time begin = Clock::now();
    changing.add(xid, set(xid, path, "changed"));
    changing.flush();
    while (!seen || changing.open() > 0) {
      poll.wait([&](Connection &connection, std::uint32_t) {
        connection.hear([](double) {}, [&] {
          seen = true;
          result.latencies.push_back(seconds_between(begin, Clock::now()));
        });
      });
    }
  } while (Clock::now() < end);
  std::printf("\n%s: an event comes after %.0f µs in the median, %.0f µs in the 99th percentile of %zu.\n", server.name.c_str(),
              result.at(0.5) * 1e6, result.at(0.99) * 1e6, result.latencies.size());
  std::fflush(stdout);
}

// What so many requests leave in memory.
void measure_memory(const Server &server, const Settings &settings) {
  Connections connections;
  for (int number = 0; number < 16; ++number) connections.emplace_back(server, number);
  make_nodes(server, connections, "content", 1024);
  const std::string content(1024, 'd');
  auto change = [&](long count) {
    return drive(server, connections, 16, [&, left = count](Connection &connection) mutable {
      if (left == 0) return false;
      --left;
      std::int32_t xid = connection.next_xid();
      connection.add(xid, set(xid, node(connection, "content"), content));
      return true;
    });
  };
  change(std::min(settings.memory, 10000L));
  std::vector<long> before;
  for (const auto &process : server.processes) before.push_back(resident_kib(process.second));
  change(settings.memory);
  std::printf("\n%s: %ld times `setData` of 1 KiB took the resident memory", server.name.c_str(), settings.memory);
  for (std::size_t index = 0; index < before.size(); ++index) {
    const auto &process = server.processes[index];
    std::printf("%s of the %s from %ld to %ld KiB", index == 0 ? "" : ",", process.first.c_str(), before[index], resident_kib(process.second));
  }
  std::printf(".\n");
  std::fflush(stdout);
}

[[noreturn]] void fail_by_words() { fail("load [--seconds N] [--rounds N] [--memory N] NAME=HOST:PORT[,PROCESS=PID..].."); }

Server server_of(const std::string &word) {
  Server server;
  auto equals = word.find('=');
  std::istringstream parts(equals == std::string::npos ? "" : word.substr(equals + 1));
  std::string part;
  if (!std::getline(parts, part, ',') || part.find(':') == std::string::npos) fail_by_words();
  server.name = word.substr(0, equals);
  server.host = part.substr(0, part.rfind(':'));
  server.port = part.substr(part.rfind(':') + 1);
  while (std::getline(parts, part, ',')) {
    auto middle = part.find('=');
    if (middle == std::string::npos) fail_by_words();
    server.processes.emplace_back(part.substr(0, middle), std::atoi(part.c_str() + middle + 1));
  }
  return server;
}

void run(const std::vector<std::string> &words) {
  Settings settings;
  std::vector<Server> servers;
  for (std::size_t index = 0; index < words.size(); ++index) {
    bool more = index + 1 < words.size();
    if (words[index] == "--seconds" && more) {
      settings.seconds = std::atof(words[++index].c_str());
    } else if (words[index] == "--rounds" && more) {
      settings.rounds = std::atoi(words[++index].c_str());
    } else if (words[index] == "--memory" && more) {
      settings.memory = std::atol(words[++index].c_str());
    } else {
      servers.push_back(server_of(words[index]));
    }
  }
  if (servers.empty() || settings.rounds < 1 || !(settings.seconds > 0)) fail_by_words();
  for (const Server &server : servers) {
    print_head(server);
    measure(server, settings, 1, 1);
    measure(server, settings, 64, 16);
    measure_events(server, settings);
    if (settings.memory > 0) measure_memory(server, settings);
  }
}

} // namespace

int main(int count, char **words) {
  try {
    run(std::vector<std::string>(words + 1, words + count));
    return 0;
  } catch (const std::exception &fault) {
    std::fflush(stdout);
    std::fprintf(stderr, "load: %s\n", fault.what());
    return 1;
  }
}
