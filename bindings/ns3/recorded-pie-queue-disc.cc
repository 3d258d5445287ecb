#include "recorded-pie-queue-disc.h"

#include "ns3/abort.h"
#include "ns3/boolean.h"
#include "ns3/double.h"
#include "ns3/drop-tail-queue.h"
#include "ns3/ipv4-queue-disc-item.h"
#include "ns3/ipv6-queue-disc-item.h"
#include "ns3/log.h"
#include "ns3/simulator.h"
#include "ns3/string.h"
#include "ns3/uinteger.h"

#include <cmath>

namespace ns3
{

NS_LOG_COMPONENT_DEFINE("RecordedPieQueueDisc");

NS_OBJECT_ENSURE_REGISTERED(RecordedPieQueueDisc);

namespace
{

/* The callers in the history: the senders, the link, the timer. */
constexpr uint16_t SENDERS = 1;
constexpr uint16_t LINK = 2;
constexpr uint16_t TIMER = 3;

uint64_t
Moment()
{
    return static_cast<uint64_t>(Simulator::Now().GetNanoSeconds());
}

/* The ECN field of the item's IP header. A packet without such a header is not ECN-capable; a queue that does not use ECN treats every packet as
 * not ECN-capable. */
uint32_t
EcnField(Ptr<const QueueDiscItem> item, bool useEcn)
{
    uint8_t field = 0;
    bool isRead = useEcn && item->GetUint8Value(QueueItem::IP_DSFIELD, field);
    return isRead ? field & 3u : 0u;
}

void
Expect(uint32_t code, const char* call)
{
    NS_ABORT_MSG_IF(code != PIE_DONE, call << " refused by code " << code);
}

/* Returns an event at the present time; its other numbers are 0. */
pie_event
EventBy(uint16_t caller)
{
    pie_event event{};
    event.caller = caller;
    event.moment = Moment();
    return event;
}

} // namespace

TypeId
RecordedPieQueueDisc::GetTypeId()
{
    static TypeId tid =
        TypeId("ns3::RecordedPieQueueDisc")
            .SetParent<QueueDisc>()
            .SetGroupName("TrafficControl")
            .AddConstructor<RecordedPieQueueDisc>()
            .AddAttribute("Target",
                          "Reference delay (RFC 8033, section 4.2)",
                          TimeValue(MilliSeconds(15)),
                          MakeTimeAccessor(&RecordedPieQueueDisc::m_target),
                          MakeTimeChecker())
            .AddAttribute("TUpdate",
                          "Time between two updates (section 4.2)",
                          TimeValue(MilliSeconds(15)),
                          MakeTimeAccessor(&RecordedPieQueueDisc::m_tUpdate),
                          MakeTimeChecker())
            .AddAttribute("MaxBurst",
                          "Burst allowance (section 4.4)",
                          TimeValue(MilliSeconds(150)),
                          MakeTimeAccessor(&RecordedPieQueueDisc::m_maxBurst),
                          MakeTimeChecker())
            .AddAttribute("Alpha",
                          "Gain of the delay's distance from the target, per second (section 4.2)",
                          DoubleValue(0.125),
                          MakeDoubleAccessor(&RecordedPieQueueDisc::m_alpha),
                          MakeDoubleChecker<double>(0, 1000))
            .AddAttribute("Beta",
                          "Gain of the delay's change, per second (section 4.2)",
                          DoubleValue(1.25),
                          MakeDoubleAccessor(&RecordedPieQueueDisc::m_beta),
                          MakeDoubleChecker<double>(0, 1000))
            .AddAttribute("MeanPkt",
                          "Mean packet size in bytes (section 4.1)",
                          UintegerValue(1024),
                          MakeUintegerAccessor(&RecordedPieQueueDisc::m_meanPkt),
                          MakeUintegerChecker<uint32_t>())
            .AddAttribute("LimitBytes",
                          "The queue's limit in bytes (appendix A)",
                          UintegerValue(262144),
                          MakeUintegerAccessor(&RecordedPieQueueDisc::m_limitBytes),
                          MakeUintegerChecker<uint32_t>())
            .AddAttribute("MarkEcnth",
                          "From this probability on a packet is dropped and not marked (section 5.1)",
                          DoubleValue(0.1),
                          MakeDoubleAccessor(&RecordedPieQueueDisc::m_markEcnth),
                          MakeDoubleChecker<double>(0, 1))
            .AddAttribute("DqThreshold",
                          "Bytes of a cycle of the departure rate (section 5.2)",
                          UintegerValue(16384),
                          MakeUintegerAccessor(&RecordedPieQueueDisc::m_dqThreshold),
                          MakeUintegerChecker<uint32_t>())
            .AddAttribute("Profile",
                          "1: always active; 2: turns itself on and off (section 5.3)",
                          UintegerValue(PIE_ALWAYS_ON),
                          MakeUintegerAccessor(&RecordedPieQueueDisc::m_profile),
                          MakeUintegerChecker<uint32_t>(PIE_ALWAYS_ON, PIE_ON_AND_OFF))
            .AddAttribute("Packets",
                          "How many packets the queue has room for",
                          UintegerValue(65536),
                          MakeUintegerAccessor(&RecordedPieQueueDisc::m_packets),
                          MakeUintegerChecker<uint32_t>(1, 65536))
            .AddAttribute("UseEcn",
                          "Whether packets whose ECN field allows it are marked (section 5.1)",
                          BooleanValue(false),
                          MakeBooleanAccessor(&RecordedPieQueueDisc::m_useEcn),
                          MakeBooleanChecker())
            .AddAttribute("UseDequeueRateEstimator",
                          "Whether delays come from the departure rate (section 5.2), and else from time stamps (section 4.3)",
                          BooleanValue(false),
                          MakeBooleanAccessor(&RecordedPieQueueDisc::m_useRate),
                          MakeBooleanChecker())
            .AddAttribute("UseDerandomization",
                          "Whether picking is de-randomized (section 5.4)",
                          BooleanValue(true),
                          MakeBooleanAccessor(&RecordedPieQueueDisc::m_useDerandomization),
                          MakeBooleanChecker())
            .AddAttribute("UseCapDropAdjustment",
                          "Whether an update's step is capped (section 5.5)",
                          BooleanValue(true),
                          MakeBooleanAccessor(&RecordedPieQueueDisc::m_useCap),
                          MakeBooleanChecker())
            .AddAttribute("ScaleBySize",
                          "Whether packets below MeanPkt are picked less often, in proportion to their size (appendix B)",
                          BooleanValue(false),
                          MakeBooleanAccessor(&RecordedPieQueueDisc::m_isScaled),
                          MakeBooleanChecker())
            .AddAttribute("DecayBelowHalf",
                          "Whether the probability decays at delays below half the target (appendix B), and else at delays of 0 (section 4.2)",
                          BooleanValue(false),
                          MakeBooleanAccessor(&RecordedPieQueueDisc::m_decaysBelowHalf),
                          MakeBooleanChecker())
            .AddAttribute("History",
                          "The file for the history; none where empty",
                          StringValue(""),
                          MakeStringAccessor(&RecordedPieQueueDisc::m_historyName),
                          MakeStringChecker())
            .AddAttribute("Flows",
                          "The file that tells flows, whose numbers then stand in the upper 32 bits of each tag; none where empty",
                          StringValue(""),
                          MakeStringAccessor(&RecordedPieQueueDisc::m_flowsName),
                          MakeStringChecker())
            .AddAttribute("Records",
                          "The file for the sums of each period, as `pie explain --every --csv` writes them of the history; none where empty",
                          StringValue(""),
                          MakeStringAccessor(&RecordedPieQueueDisc::m_recordsName),
                          MakeStringChecker())
            .AddAttribute("Every",
                          "How long such a period lasts",
                          TimeValue(Seconds(1)),
                          MakeTimeAccessor(&RecordedPieQueueDisc::m_every),
                          MakeTimeChecker(NanoSeconds(1)))
            .AddTraceSource("Probability",
                            "The probability after an update",
                            MakeTraceSourceAccessor(&RecordedPieQueueDisc::m_probability),
                            "ns3::TracedValueCallback::Double")
            .AddTraceSource("Delay",
                            "The queueing delay that an update took",
                            MakeTraceSourceAccessor(&RecordedPieQueueDisc::m_delay),
                            "ns3::TracedValueCallback::Time");
    return tid;
}

RecordedPieQueueDisc::RecordedPieQueueDisc()
    : QueueDisc(QueueDiscSizePolicy::SINGLE_INTERNAL_QUEUE, QueueSizeUnit::BYTES),
      m_pie(),
      m_words(CreateObject<UniformRandomVariable>()),
      m_flows(),
      m_records(),
      m_flowsFile(),
      m_recordsFile(),
      m_arrivals(0)
{
}

void
RecordedPieQueueDisc::DoDispose()
{
    m_updateEvent.Cancel();
    m_words = nullptr;
    if (m_history.is_open())
    {
        m_history.close();
        NS_ABORT_MSG_IF(m_history.fail(), "the history could not be written");
    }
    NS_ABORT_MSG_UNLESS(close_flows(&m_flows) && close_output(&m_flowsFile), "the flows could not be written");
    NS_ABORT_MSG_UNLESS(close_records(&m_records) && close_output(&m_recordsFile), "the records of periods could not be written");
    QueueDisc::DoDispose();
}

int64_t
RecordedPieQueueDisc::AssignStreams(int64_t stream)
{
    m_words->SetStream(stream);
    return 1;
}

const pie_state&
RecordedPieQueueDisc::GetState() const
{
    return m_pie;
}

pie_opening
RecordedPieQueueDisc::Opening() const
{
    pie_opening opening;
    pie_default_opening(&opening, 0);
    pie_params& params = opening.params;
    params.target = static_cast<uint64_t>(m_target.GetNanoSeconds());
    params.t_update = static_cast<uint64_t>(m_tUpdate.GetNanoSeconds());
    params.max_burst = static_cast<uint64_t>(m_maxBurst.GetNanoSeconds());
    params.alpha = static_cast<uint64_t>(std::llround(m_alpha * 1000));
    params.beta = static_cast<uint64_t>(std::llround(m_beta * 1000));
    params.mean_pkt = m_meanPkt;
    params.limit_bytes = m_limitBytes;
    params.mark_ecnth = static_cast<uint64_t>(std::llround(m_markEcnth * 1e12));
    params.dq_threshold = m_dqThreshold;
    opening.moment = Moment();
    opening.profile = m_profile;
    opening.choices = (m_useRate ? PIE_USUAL : PIE_DELAY_STAMP) | (m_useDerandomization ? PIE_USUAL : PIE_PICK_RANDOM) |
                      (m_useCap ? PIE_USUAL : PIE_STEP_UNCAPPED) | (m_isScaled ? PIE_SIZE_SCALED : PIE_USUAL) |
                      (m_decaysBelowHalf ? PIE_DECAY_HALF : PIE_USUAL);
    opening.packets = m_packets;
    return opening;
}

bool
RecordedPieQueueDisc::CheckConfig()
{
    if (GetNQueueDiscClasses() != 0 || GetNPacketFilters() != 0 || GetNInternalQueues() != 0)
    {
        NS_LOG_ERROR("RecordedPieQueueDisc has no classes and no filters, and makes its queue itself");
        return false;
    }
    pie_params params = Opening().params;
    uint32_t bad = pie_check_params(&params);
    if (bad != 0)
    {
        NS_LOG_ERROR("parameter " << bad << " of pie_check_params is out of its range");
        return false;
    }
    /* The library decides if there is room for a packet, so the queue itself never refuses one. */
    QueueSize limit(QueueSizeUnit::BYTES, m_limitBytes);
    SetMaxSize(limit);
    AddInternalQueue(CreateObjectWithAttributes<DropTailQueue<QueueDiscItem>>("MaxSize", QueueSizeValue(limit)));
    return true;
}

void
RecordedPieQueueDisc::InitializeParams()
{
    pie_opening opening = Opening();
    Expect(pie_open(&m_pie, &opening), "pie_open");
    RecordOpening(opening);
    const char* flowsName = m_flowsName.empty() ? nullptr : m_flowsName.c_str();
    const char* recordsName = m_recordsName.empty() ? nullptr : m_recordsName.c_str();
    bool areOpen = open_output(&m_flowsFile, flowsName, OUTPUT_FOLLOWED, true);
    NS_ABORT_MSG_UNLESS(areOpen && open_flows(&m_flows, m_flowsFile.file), "cannot write " << m_flowsName);
    areOpen = open_output(&m_recordsFile, recordsName, OUTPUT_FOLLOWED, true);
    uint64_t every = static_cast<uint64_t>(m_every.GetNanoSeconds());
    NS_ABORT_MSG_UNLESS(areOpen && open_records(&m_records, m_recordsFile.file, every, 0, nullptr), "cannot write " << m_recordsName);
    m_updateEvent = Simulator::Schedule(m_tUpdate, &RecordedPieQueueDisc::Update, this);
}

void
RecordedPieQueueDisc::RecordOpening(const pie_opening& opening)
{
    if (m_historyName.empty())
    {
        return;
    }
    m_history.open(m_historyName);
    NS_ABORT_MSG_UNLESS(m_history, "cannot write " << m_historyName);
    unsigned char text[PIE_RECORD_ROOM];
    Write(text, pie_write_opening(&opening, text, sizeof text));
}

void
RecordedPieQueueDisc::Write(const unsigned char* text, size_t count)
{
    NS_ABORT_MSG_IF(count == 0, "an event that no history has");
    m_history.write(reinterpret_cast<const char*>(text), static_cast<std::streamsize>(count));
}

void
RecordedPieQueueDisc::Record(const pie_event& event)
{
    if (m_history.is_open())
    {
        unsigned char text[PIE_RECORD_ROOM];
        Write(text, pie_write_event(&event, text, sizeof text));
    }
}

uint64_t
RecordedPieQueueDisc::Word()
{
    uint64_t high = m_words->GetInteger(0, UINT32_MAX);
    return high << 32 | m_words->GetInteger(0, UINT32_MAX);
}

/* The tag of the packet that arrives. Its IP header is beside it until it leaves, so its bytes are put together here. */
uint64_t
RecordedPieQueueDisc::Tag(Ptr<const QueueDiscItem> item)
{
    m_arrivals++;
    if (m_flowsName.empty())
    {
        return m_arrivals;
    }
    Ptr<Packet> packet = item->GetPacket()->Copy();
    if (auto ipv4 = DynamicCast<const Ipv4QueueDiscItem>(item))
    {
        packet->AddHeader(ipv4->GetHeader());
    }
    else if (auto ipv6 = DynamicCast<const Ipv6QueueDiscItem>(item))
    {
        packet->AddHeader(ipv6->GetHeader());
    }
    uint8_t bytes[FLOW_BYTES];
    uint32_t caught = packet->CopyData(bytes, sizeof bytes);
    flow_top ended;
    return note_flow(&m_flows, bytes, caught, item->GetSize(), Moment(), m_arrivals, &ended);
}

bool
RecordedPieQueueDisc::Drop(Ptr<QueueDiscItem> item, const char* reason)
{
    DropBeforeEnqueue(item, reason);
    return false;
}

bool
RecordedPieQueueDisc::DoEnqueue(Ptr<QueueDiscItem> item)
{
    Ptr<InternalQueue> queue = GetInternalQueue(0);
    pie_event event = EventBy(SENDERS);
    event.tag = Tag(item);
    event.size = item->GetSize();
    event.ecn = static_cast<uint8_t>(EcnField(item, m_useEcn));
    event.word = Word();
    uint32_t room = m_packets - queue->GetNPackets();
    uint32_t verdict = decide_arrival(&m_records, &m_pie, queue->GetNBytes(), room, &event);
    NS_ABORT_MSG_IF(verdict > PIE_PACKETS, "an arrival is refused by code " << verdict);
    Record(event);
    switch (verdict)
    {
    case PIE_EARLY:
        return Drop(item, EARLY_DROP);
    case PIE_BYTES:
        return Drop(item, BYTES_DROP);
    case PIE_PACKETS:
        return Drop(item, PACKETS_DROP);
    case PIE_MARK:
        NS_ABORT_MSG_UNLESS(Mark(item, MARK), "a packet was to be marked that cannot be");
        break;
    default:
        break;
    }
    NS_ABORT_MSG_UNLESS(queue->Enqueue(item), "the queue refused a packet that the library let in");
    m_tags.emplace_back(event.tag, m_pie.moment);
    return true;
}

Ptr<QueueDiscItem>
RecordedPieQueueDisc::DoDequeue()
{
    Ptr<InternalQueue> queue = GetInternalQueue(0);
    Ptr<QueueDiscItem> item = queue->Dequeue();
    if (!item)
    {
        return nullptr; /* the simulator's clock does not fall, so pie_empty would change no decision */
    }
    pie_event event = EventBy(LINK);
    auto [tag, arrived] = m_tags.front();
    m_tags.pop_front();
    event.tag = tag;
    event.size = item->GetSize();
    event.ecn = static_cast<uint8_t>(EcnField(item, m_useEcn));
    Expect(take_departure(&m_records, &m_pie, queue->GetNBytes(), arrived, &event), "a departure");
    Record(event);
    return item;
}

void
RecordedPieQueueDisc::Update()
{
    pie_event event = EventBy(TIMER);
    Expect(make_update(&m_records, &m_pie, GetInternalQueue(0)->GetNBytes(), &event), "an update");
    Record(event);
    m_probability = static_cast<double>(event.prob) / 1e12;
    m_delay = NanoSeconds(static_cast<int64_t>(event.delay));
    m_updateEvent = Simulator::Schedule(NanoSeconds(static_cast<int64_t>(pie_due(&m_pie) - event.moment)),
                                        &RecordedPieQueueDisc::Update,
                                        this);
}

} // namespace ns3
