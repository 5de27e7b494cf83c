"""The program: which one answers, how it is proved, built or compiled without proofs, and what proofs cost."""
