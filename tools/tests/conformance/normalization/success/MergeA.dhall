merge { A = 1 } < A >.A
