(declare-sort U 0)
(check-sat)
(push 18446744073709551616)
