/* ns-3's PieQueueDisc with single rules changed to those of RFC 8033, to find the rule that makes a difference
 * (docs/RESULTS.md). It uses state that is private in ns-3, so it is only for this purpose. */
#ifndef CHANGED_PIE_QUEUE_DISC_H
#define CHANGED_PIE_QUEUE_DISC_H

#include <deque>
#include <functional>
#include <list>
#include <map>
#include <sstream>
#include <string>
#include <unordered_map>
#include <vector>

#include "ns3/queue-disc.h"
#include "ns3/random-variable-stream.h"

#define private public
#include "ns3/pie-queue-disc.h"
#undef private

#include "ns3/boolean.h"

namespace ns3
{

class ChangedPieQueueDisc : public PieQueueDisc
{
  public:
    static TypeId GetTypeId()
    {
        static TypeId tid = TypeId("ns3::ChangedPieQueueDisc")
                                .SetParent<PieQueueDisc>()
                                .SetGroupName("TrafficControl")
                                .AddConstructor<ChangedPieQueueDisc>()
                                .AddAttribute("AccumulateAnewAfterMark",
                                              "The accumulated probability is 0 after a mark too (appendix B, drop_early)",
                                              BooleanValue(true),
                                              MakeBooleanAccessor(&ChangedPieQueueDisc::m_isAnew),
                                              MakeBooleanChecker())
                                .AddAttribute("WholeAllowanceWhenCalm",
                                              "The burst allowance is whole again at each calm moment (section 4.4)",
                                              BooleanValue(false),
                                              MakeBooleanAccessor(&ChangedPieQueueDisc::m_isWhole),
                                              MakeBooleanChecker());
        return tid;
    }

  private:
    bool DoEnqueue(Ptr<QueueDiscItem> item) override
    {
        if (m_isWhole && m_dropProb == 0 && m_qDelay < m_qDelayRef / 2 && m_qDelayOld < m_qDelayRef / 2)
        {
            m_burstAllowance = m_maxBurst;
            m_burstState = IN_BURST_PROTECTING;
        }
        uint32_t marked = GetStats().nTotalMarkedPackets;
        bool isQueued = PieQueueDisc::DoEnqueue(item);
        if (m_isAnew && GetStats().nTotalMarkedPackets > marked)
        {
            m_accuProb = 0;
        }
        return isQueued;
    }

    bool m_isAnew;
    bool m_isWhole;
};

NS_OBJECT_ENSURE_REGISTERED(ChangedPieQueueDisc);

} // namespace ns3

#endif
