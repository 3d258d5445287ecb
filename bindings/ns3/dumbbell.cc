/* TCP flows over a dumbbell: each flow has a sender and a receiver of its own, and all share one link, whose queue is managed by this repository's
 * PIE, by ns-3's own with or without de-randomization, or by tail drop. Prints one CSV record of the results. / */
#include "changed-pie-queue-disc.h"
#include "recorded-pie-queue-disc.h"

#include "ns3/applications-module.h"
#include "ns3/core-module.h"
#include "ns3/internet-module.h"
#include "ns3/network-module.h"
#include "ns3/point-to-point-module.h"
#include "ns3/traffic-control-module.h"

#include <algorithm>
#include <cstdio>
#include <cstring>
#include <numeric>
#include <vector>

using namespace ns3;

namespace
{

/* A scenario, from the command line. */
struct Scenario
{
    std::string queue = "recorded"; /* recorded or pie, also with a choice of ChoicesOf; recorded-scaled; pie-mark, pie-mark-burst or fifo */
    bool isBounded = false;         /* the queue's name had BOUNDED behind: senders are BoundedCubic */
    double megabits = 10;           /* the shared link's rate */
    uint32_t flows = 4;
    double roundTrip = 40; /* ms, without queues */
    bool ecn = false;
    double udp = 0; /* rate of a UDP burst in the middle fifth of the run, as a fraction of the link's rate */
    uint32_t seed = 1;
    double seconds = 20;
    double warmUp = 5; /* seconds at the beginning that the figures exclude */
    double buffer = 0; /* send buffer of each flow in kB; 0: SendBufferBytes */
    std::string history;
    std::string flowsFile;
    std::string records;
    double every = 1;
    std::string windows;
};

constexpr uint32_t SEGMENT = 1448;   /* bytes; with 52 bytes of headers a packet has 1500 */
constexpr uint32_t MEAN_PKT = 1500;  /* bytes, for all queues, so that ns-3's scaling by size has no effect */
constexpr uint16_t PORT = 5000;
constexpr int64_t STARTS = 1;        /* random stream of the flows' starts */
constexpr int64_t WORDS = 2;         /* random stream of the queue's words */

constexpr const char* BOUNDED = "+bounded";

/* CUBIC whose slow start ends at the threshold, as that of Linux. TcpCubic of ns-3.37 adds all acknowledged bytes to the window, also if they lead
 * far beyond the threshold. */
class BoundedCubic : public TcpCubic
{
  public:
    static TypeId GetTypeId()
    {
        static TypeId id = TypeId("ns3::BoundedCubic").SetParent<TcpCubic>().AddConstructor<BoundedCubic>();
        return id;
    }

    void IncreaseWindow(Ptr<TcpSocketState> socket, uint32_t segmentsAcked) override
    {
        if (socket->m_cWnd < socket->m_ssThresh)
        {
            uint32_t least = (socket->m_ssThresh - socket->m_cWnd + socket->m_segmentSize - 1) / socket->m_segmentSize;
            segmentsAcked = std::min(segmentsAcked, least);
        }
        TcpCubic::IncreaseWindow(socket, segmentsAcked);
    }

    Ptr<TcpCongestionOps> Fork() override
    {
        return CopyObject<BoundedCubic>(this);
    }
};

NS_OBJECT_ENSURE_REGISTERED(BoundedCubic);

/* Counters of a run. */
struct Counts
{
    std::vector<double> waits; /* ms, for each packet that departed after the warm-up */
    double early = 0;          /* sum of the waits during the warm-up; earlyPackets is their number */
    uint64_t earlyPackets = 0;
    std::vector<uint64_t> received; /* bytes of each TCP flow after the warm-up */
    uint64_t sent = 0;              /* bytes that left the shared link's queue after the warm-up, with headers */
};

Counts g_counts;
Time g_warmUp;
FILE* g_windows;

void
SeeWindow(uint32_t flow, uint32_t before, uint32_t after)
{
    std::fprintf(g_windows, "%.0f,%u,%u,%u\n", Simulator::Now().GetSeconds() * 1e9, flow, before, after);
}

void
WatchWindow(uint32_t flow, Ptr<BulkSendApplication> source)
{
    source->GetSocket()->TraceConnectWithoutContext("CongestionWindow", MakeBoundCallback(&SeeWindow, flow));
}

void
SeeWait(Time wait)
{
    double ms = wait.GetSeconds() * 1000;
    if (Simulator::Now() >= g_warmUp)
    {
        g_counts.waits.push_back(ms);
    }
    else
    {
        g_counts.early += ms;
        g_counts.earlyPackets++;
    }
}

/* (The bytes that a receiver reads do not measure the link: bytes after a gap are read when it
 * closes, even if they arrived before the end of the warm-up.) */
void
SeeSent(Ptr<const QueueDiscItem> item)
{
    if (Simulator::Now() >= g_warmUp)
    {
        g_counts.sent += item->GetSize();
    }
}

void
SeeReceived(uint32_t flow, Ptr<const Packet> packet, const Address&)
{
    if (Simulator::Now() >= g_warmUp)
    {
        g_counts.received[flow] += packet->GetSize();
    }
}

/* 262144 bytes at 10 Mbit/s, some 210 ms, and in proportion at other rates. */
uint32_t
LimitBytes(const Scenario& scenario)
{
    return static_cast<uint32_t>(262144 * scenario.megabits / 10);
}

/* Returns the most bytes in flight of a flow, which its send buffer bounds: for one flow twice the contents of the link and its full queue,
 * for more flows four times each one's share. Without such a bound a flow sends megabytes after a lost retransmission, and ns-3 walks over
 * all of them at each acknowledgement. (The receive buffer cannot be the bound: ns-3.37 ends by a null pointer if a sender with SACK has
 * filled the receiver's window exactly, TcpTxBuffer::NextSeg.) */
uint32_t
SendBufferBytes(const Scenario& scenario)
{
    if (scenario.buffer > 0)
    {
        return static_cast<uint32_t>(scenario.buffer * 1000);
    }
    double holds = scenario.megabits * 1e6 / 8 * scenario.roundTrip / 1000 + LimitBytes(scenario);
    return static_cast<uint32_t>(holds * std::min(2.0, 4.0 / scenario.flows));
}

void
SetTcp(const Scenario& scenario)
{
    Config::SetDefault("ns3::TcpL4Protocol::SocketType", TypeIdValue(scenario.isBounded ? BoundedCubic::GetTypeId() : TcpCubic::GetTypeId()));
    Config::SetDefault("ns3::TcpSocket::SegmentSize", UintegerValue(SEGMENT));
    Config::SetDefault("ns3::TcpSocket::InitialCwnd", UintegerValue(10));
    Config::SetDefault("ns3::TcpSocket::SndBufSize", UintegerValue(SendBufferBytes(scenario)));
    Config::SetDefault("ns3::TcpSocket::RcvBufSize", UintegerValue(1 << 24));
    Config::SetDefault("ns3::TcpSocketBase::UseEcn", StringValue(scenario.ecn ? "On" : "Off"));
    Config::SetDefault("ns3::DropTailQueue<Packet>::MaxSize", StringValue("1p"));
}

/* RFC 8033's optional elements, which both PIEs have by the same names. */
struct Choices
{
    bool isByRate = true;       /* delays from the departure rate (section 5.2), otherwise from time stamps (section
                                   4.3) */
    bool isDerandomized = true; /* section 5.4 */
    bool isCapped = true;       /* section 5.5 */
};

/* Returns the choices in a queue's name after its first word; those of RFC 8033 by default. */
Choices
ChoicesOf(const std::string& asked)
{
    NS_ABORT_MSG_UNLESS(asked.empty() || asked == "-stamp" || asked == "-random" || asked == "-uncapped" || asked == "-all",
                        "unknown choice " << asked);
    bool isAll = asked == "-all";
    return {!isAll && asked != "-stamp", !isAll && asked != "-random", !isAll && asked != "-uncapped"};
}

/* Removes this beginning from a word. Returns true if the word had it. */
bool
TakesOff(std::string& word, const std::string& beginning)
{
    if (word.rfind(beginning, 0) != 0)
    {
        return false;
    }
    word.erase(0, beginning.size());
    return true;
}

/* The queue of the shared link. Attributes that are not set here have the default of RFC 8033 in
 * both. */
TrafficControlHelper
QueueOf(const Scenario& scenario)
{
    QueueSizeValue limit(QueueSize(QueueSizeUnit::BYTES, LimitBytes(scenario)));
    TrafficControlHelper helper;
    if (scenario.queue.rfind("recorded", 0) == 0)
    {
        bool isScaled = scenario.queue == "recorded-scaled"; /* ns-3's own scales under a limit in bytes, and has no choice there */
        bool isHalf = scenario.queue == "recorded-half";     /* ns-3's own decays at delays of 0 alone */
        Choices choices = ChoicesOf(isScaled || isHalf ? "" : scenario.queue.substr(8));
        helper.SetRootQueueDisc("ns3::RecordedPieQueueDisc",
                                "MeanPkt", UintegerValue(MEAN_PKT),
                                "LimitBytes", UintegerValue(LimitBytes(scenario)),
                                "UseDequeueRateEstimator", BooleanValue(choices.isByRate),
                                "UseCapDropAdjustment", BooleanValue(choices.isCapped),
                                "UseDerandomization", BooleanValue(choices.isDerandomized),
                                "ScaleBySize", BooleanValue(isScaled),
                                "DecayBelowHalf", BooleanValue(isHalf),
                                "UseEcn", BooleanValue(scenario.ecn),
                                "History", StringValue(scenario.history), "Flows", StringValue(scenario.flowsFile),
                                "Records", StringValue(scenario.records), "Every", TimeValue(Seconds(scenario.every)));
    }
    else if (scenario.queue.rfind("pie", 0) == 0)
    {
        /* the changes of ChangedPieQueueDisc: at a mark, and at the burst allowance */
        std::string choice = scenario.queue.substr(3);
        bool isChanged = TakesOff(choice, "-mark");
        bool isWhole = isChanged && TakesOff(choice, "-burst");
        Config::SetDefault("ns3::ChangedPieQueueDisc::WholeAllowanceWhenCalm", BooleanValue(isWhole));
        Choices choices = ChoicesOf(choice);
        helper.SetRootQueueDisc(isChanged ? "ns3::ChangedPieQueueDisc" : "ns3::PieQueueDisc",
                                "MeanPktSize", UintegerValue(MEAN_PKT),
                                "MaxSize", limit,
                                "UseDequeueRateEstimator", BooleanValue(choices.isByRate),
                                "UseCapDropAdjustment", BooleanValue(choices.isCapped),
                                "UseDerandomization", BooleanValue(choices.isDerandomized),
                                "UseEcn", BooleanValue(scenario.ecn));
    }
    else
    {
        NS_ABORT_MSG_UNLESS(scenario.queue == "fifo", "unknown queue " << scenario.queue);
        helper.SetRootQueueDisc("ns3::FifoQueueDisc", "MaxSize", limit);
    }
    return helper;
}

/* A seed's random words are of a stream of their own, so that its flows start at the same moments by every queue. */
void
SetWords(Ptr<QueueDisc> queue)
{
    if (Ptr<RecordedPieQueueDisc> recorded = DynamicCast<RecordedPieQueueDisc>(queue))
    {
        recorded->AssignStreams(WORDS);
    }
    else if (Ptr<PieQueueDisc> pie = DynamicCast<PieQueueDisc>(queue))
    {
        pie->AssignStreams(WORDS);
    }
}

PointToPointHelper
LinkOf(double megabits, double delay)
{
    PointToPointHelper link;
    link.SetDeviceAttribute("DataRate", DataRateValue(DataRate(static_cast<uint64_t>(megabits * 1e6))));
    link.SetChannelAttribute("Delay", TimeValue(Seconds(delay / 1000)));
    return link;
}

/* The two routers and the hosts, with addresses. */
struct Dumbbell
{
    NodeContainer routers, senders, receivers;
    std::vector<Ipv4Address> targets; /* the receivers' addresses */
    Ptr<QueueDisc> queue;             /* queue of the shared link, on the senders' side */
};

void
JoinHosts(Dumbbell& net, const NodeContainer& hosts, Ptr<Node> router, const char* base, bool isTarget)
{
    PointToPointHelper access = LinkOf(1000, 0.5);
    InternetStackHelper stack;
    stack.Install(hosts);
    Ipv4AddressHelper addresses;
    addresses.SetBase(base, "255.255.255.252");
    for (uint32_t i = 0; i < hosts.GetN(); i++)
    {
        NetDeviceContainer pair = access.Install(router, hosts.Get(i));
        Ipv4InterfaceContainer assigned = addresses.Assign(pair);
        addresses.NewNetwork();
        if (isTarget)
        {
            net.targets.push_back(assigned.GetAddress(1));
        }
    }
}

Dumbbell
Build(const Scenario& scenario)
{
    Dumbbell net;
    net.routers.Create(2);
    /* another host on each side, for the UDP burst */
    net.senders.Create(scenario.flows + 1);
    net.receivers.Create(scenario.flows + 1);
    InternetStackHelper().Install(net.routers);
    /* two access links of 0.5 ms each way, and the rest of the round trip on the shared link */
    PointToPointHelper shared = LinkOf(scenario.megabits, scenario.roundTrip / 2 - 1);
    NetDeviceContainer pair = shared.Install(net.routers);
    net.queue = QueueOf(scenario).Install(pair.Get(0)).Get(0);
    SetWords(net.queue);
    Ipv4AddressHelper addresses("10.0.0.0", "255.255.255.252");
    addresses.Assign(pair);
    JoinHosts(net, net.senders, net.routers.Get(0), "10.1.0.0", false);
    JoinHosts(net, net.receivers, net.routers.Get(1), "10.2.0.0", true);
    Ipv4GlobalRoutingHelper::PopulateRoutingTables();
    return net;
}

void
StartFlows(const Scenario& scenario, const Dumbbell& net)
{
    Ptr<UniformRandomVariable> start = CreateObject<UniformRandomVariable>();
    start->SetStream(STARTS);
    for (uint32_t i = 0; i < scenario.flows; i++)
    {
        PacketSinkHelper sink("ns3::TcpSocketFactory", InetSocketAddress(Ipv4Address::GetAny(), PORT));
        ApplicationContainer sinks = sink.Install(net.receivers.Get(i));
        sinks.Get(0)->TraceConnectWithoutContext("Rx", MakeBoundCallback(&SeeReceived, i));
        BulkSendHelper bulk("ns3::TcpSocketFactory", InetSocketAddress(net.targets[i], PORT));
        bulk.SetAttribute("SendSize", UintegerValue(SEGMENT));
        ApplicationContainer source = bulk.Install(net.senders.Get(i));
        double begin = start->GetValue(0, 1);
        source.Start(Seconds(begin));
        if (g_windows)
        {
            Simulator::Schedule(Seconds(begin) + NanoSeconds(1), &WatchWindow, i, DynamicCast<BulkSendApplication>(source.Get(0)));
        }
    }
}

void
StartBurst(const Scenario& scenario, const Dumbbell& net)
{
    InetSocketAddress target(net.targets[scenario.flows], PORT);
    PacketSinkHelper sink("ns3::UdpSocketFactory", InetSocketAddress(Ipv4Address::GetAny(), PORT));
    sink.Install(net.receivers.Get(scenario.flows));
    OnOffHelper burst("ns3::UdpSocketFactory", target);
    burst.SetConstantRate(DataRate(static_cast<uint64_t>(scenario.udp * scenario.megabits * 1e6)), 1472);
    ApplicationContainer source = burst.Install(net.senders.Get(scenario.flows));
    source.Start(Seconds(scenario.seconds * 0.4));
    source.Stop(Seconds(scenario.seconds * 0.6));
}

/* The value that this part of the sorted list lies at or below. */
double
Quantile(const std::vector<double>& sorted, double part)
{
    return sorted.empty() ? 0 : sorted[static_cast<size_t>(part * static_cast<double>(sorted.size() - 1))];
}

/* Returns Jain's index: 1 if all flows received equal amounts. */
double
Fairness(const std::vector<uint64_t>& received)
{
    double sum = 0;
    double squares = 0;
    for (uint64_t bytes : received)
    {
        sum += static_cast<double>(bytes);
        squares += static_cast<double>(bytes) * static_cast<double>(bytes);
    }
    return squares == 0 ? 0 : sum * sum / (squares * static_cast<double>(received.size()));
}

constexpr const char* HEADER =
    "queue,mbit,flows,rtt_ms,ecn,udp,seed,goodput_mbit,link_mbit,fairness,wait_mean_ms,wait_median_ms,wait_p95_ms,wait_p99_ms,"
    "start_wait_mean_ms,sent,early,tail,marked";

void
Print(const Scenario& s, const Dumbbell& net)
{
    std::vector<double>& waits = g_counts.waits;
    std::sort(waits.begin(), waits.end());
    double sum = std::accumulate(waits.begin(), waits.end(), 0.0);
    double mean = waits.empty() ? 0 : sum / static_cast<double>(waits.size());
    double start = g_counts.earlyPackets == 0 ? 0 : g_counts.early / static_cast<double>(g_counts.earlyPackets);
    uint64_t bytes = std::accumulate(g_counts.received.begin(), g_counts.received.end(), uint64_t(0));
    double goodput = static_cast<double>(bytes) * 8 / (s.seconds - s.warmUp) / 1e6;
    double sent = static_cast<double>(g_counts.sent) * 8 / (s.seconds - s.warmUp) / 1e6;
    const QueueDisc::Stats& stats = net.queue->GetStats();
    uint32_t early = stats.GetNDroppedPackets(RecordedPieQueueDisc::EARLY_DROP) +
                     stats.GetNDroppedPackets(PieQueueDisc::UNFORCED_DROP);
    std::printf("%s,%g,%u,%g,%d,%g,%u,%.4f,%.4f,%.4f,%.3f,%.3f,%.3f,%.3f,%.3f,%u,%u,%u,%u\n",
                (s.queue + (s.isBounded ? BOUNDED : "")).c_str(), s.megabits, s.flows, s.roundTrip, s.ecn, s.udp, s.seed, goodput, sent,
                Fairness(g_counts.received), mean, Quantile(waits, 0.5), Quantile(waits, 0.95), Quantile(waits, 0.99),
                start, stats.nTotalDequeuedPackets, early, stats.nTotalDroppedPackets - early, stats.nTotalMarkedPackets);
}

Scenario
Read(int count, char** words)
{
    Scenario s;
    bool isHeader = false;
    CommandLine line(__FILE__);
    line.AddValue("queue",
                  "recorded or pie, with -stamp, -random, -uncapped or -all for another choice; recorded-scaled, recorded-half; fifo; pie-mark, "
                  "pie-mark-burst: pie with points changed, also with a choice behind; +bounded at the end: senders whose slow start ends at the threshold",
                  s.queue);
    line.AddValue("rate", "Mbit/s of the shared link", s.megabits);
    line.AddValue("flows", "TCP flows", s.flows);
    line.AddValue("rtt", "round trip without queues, ms", s.roundTrip);
    line.AddValue("ecn", "ECN at hosts and queue", s.ecn);
    line.AddValue("udp", "rate of a UDP burst in the middle fifth, in parts of the link's", s.udp);
    line.AddValue("seed", "number of the run", s.seed);
    line.AddValue("seconds", "simulated seconds", s.seconds);
    line.AddValue("warm-up", "seconds of which steady figures take no account", s.warmUp);
    line.AddValue("buffer", "send buffer of each flow, kB; 0: four times its share of what link and queue hold", s.buffer);
    line.AddValue("history", "file for the history (queue recorded)", s.history);
    line.AddValue("flows-file", "file that tells its flows (queue recorded)", s.flowsFile);
    line.AddValue("records", "file for the sums of its periods (queue recorded)", s.records);
    line.AddValue("every", "seconds that such a period lasts", s.every);
    line.AddValue("windows", "file for the congestion windows of the senders: nanoseconds, flow, bytes before and after", s.windows);
    line.AddValue("header", "print the names of the fields before the record", isHeader);
    line.Parse(count, words);
    size_t end = s.queue.size() - std::min(s.queue.size(), std::strlen(BOUNDED));
    s.isBounded = s.queue.substr(end) == BOUNDED;
    if (s.isBounded)
    {
        s.queue.resize(end);
    }
    if (isHeader)
    {
        std::printf("%s\n", HEADER);
    }
    return s;
}

} // namespace

int
main(int count, char** words)
{
    Scenario scenario = Read(count, words);
    RngSeedManager::SetRun(scenario.seed);
    SetTcp(scenario);
    g_warmUp = Seconds(scenario.warmUp);
    if (!scenario.windows.empty())
    {
        g_windows = std::fopen(scenario.windows.c_str(), "w");
        NS_ABORT_MSG_UNLESS(g_windows, "cannot write " << scenario.windows);
    }
    g_counts.received.assign(scenario.flows, 0);
    Dumbbell net = Build(scenario);
    net.queue->TraceConnectWithoutContext("SojournTime", MakeCallback(&SeeWait));
    net.queue->TraceConnectWithoutContext("Dequeue", MakeCallback(&SeeSent));
    StartFlows(scenario, net);
    if (scenario.udp > 0)
    {
        StartBurst(scenario, net);
    }
    Simulator::Stop(Seconds(scenario.seconds));
    Simulator::Run();
    Print(scenario, net);
    Simulator::Destroy();
    NS_ABORT_MSG_IF(g_windows && std::fclose(g_windows) != 0, "cannot write " << scenario.windows);
    return 0;
}
