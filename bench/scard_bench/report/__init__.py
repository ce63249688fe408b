"""Reports of what was played and judged: text, JUnit's XML, JSON, and one page of HTML."""
