# Checks the blocks of wrong bodies, without the prover.
wrong_bodies() { told "$room_of_all/wrong_bodies" tests/gate/wrong_body_list.py compare; }
