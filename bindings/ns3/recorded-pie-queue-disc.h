/* PIE (RFC 8033) by libpie_c.a as a queue discipline of ns-3: every decision goes into a history that `pie audit` decides again
 * and `pie explain` explains. */
#ifndef RECORDED_PIE_QUEUE_DISC_H
#define RECORDED_PIE_QUEUE_DISC_H

#include "flow.h"
#include "output.h"
#include "pie.h"
#include "records.h"

#include "ns3/event-id.h"
#include "ns3/nstime.h"
#include "ns3/queue-disc.h"
#include "ns3/random-variable-stream.h"
#include "ns3/traced-value.h"

#include <deque>
#include <fstream>
#include <string>
#include <utility>

namespace ns3
{

/* A queue of bytes with PIE in front of it. The controller's parameters are attributes of the same names; they hold from the initialization on.
 * Updates are events of the simulator, each scheduled at the moment that the update before it returned. A refusal by the library ends the
 * simulation with its code. */
class RecordedPieQueueDisc : public QueueDisc
{
  public:
    static TypeId GetTypeId();
    RecordedPieQueueDisc();

    /* Sets the random stream, and returns the number of used streams: 1. */
    int64_t AssignStreams(int64_t stream);

    /* The controller's state, to be read at any time. */
    const pie_state& GetState() const;

    /* The reasons for a drop or a mark, by the keywords of a history. */
    static constexpr const char* EARLY_DROP = "early";
    static constexpr const char* BYTES_DROP = "bytes";
    static constexpr const char* PACKETS_DROP = "packets";
    static constexpr const char* MARK = "mark";

  protected:
    void DoDispose() override;

  private:
    bool DoEnqueue(Ptr<QueueDiscItem> item) override;
    Ptr<QueueDiscItem> DoDequeue() override;
    bool CheckConfig() override;
    void InitializeParams() override;

    pie_opening Opening() const;
    void Update();
    uint64_t Word();
    uint64_t Tag(Ptr<const QueueDiscItem> item);
    bool Drop(Ptr<QueueDiscItem> item, const char* reason);
    void RecordOpening(const pie_opening& opening);
    void Record(const pie_event& event);
    void Write(const unsigned char* text, size_t count);

    /* The attributes. */
    Time m_target;
    Time m_tUpdate;
    Time m_maxBurst;
    double m_alpha;
    double m_beta;
    uint32_t m_meanPkt;
    uint32_t m_limitBytes;
    double m_markEcnth;
    uint32_t m_dqThreshold;
    uint32_t m_profile;
    uint32_t m_packets;
    bool m_useEcn;
    bool m_useRate;
    bool m_useDerandomization;
    bool m_useCap;
    bool m_isScaled;
    bool m_decaysBelowHalf;
    std::string m_historyName;
    std::string m_flowsName;
    std::string m_recordsName;
    Time m_every;

    pie_state m_pie;
    Ptr<UniformRandomVariable> m_words;
    EventId m_updateEvent;
    std::ofstream m_history;
    flows m_flows;
    records m_records;
    output m_flowsFile;
    output m_recordsFile;
    uint64_t m_arrivals;         /* so far; a packet's tag in the history is its number among them, with Flows below its flow's */
    std::deque<std::pair<uint64_t, uint64_t>> m_tags; /* tags of the queued packets, with the controller's moment at the
                                                         arrival */
    TracedValue<double> m_probability;
    TracedValue<Time> m_delay;
};

} // namespace ns3

#endif
