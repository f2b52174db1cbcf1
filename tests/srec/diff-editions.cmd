diff --edition sum apart-sum.ptp t256-sum.ptp
