"""The suite: a device under test talks lines, the tester answers by a proved end, and the judge decides."""
