"""The search for a shortest script by which bytes get somewhere.

`closure` collects all that can come to be where nothing that was reached is ever lost, and the steps by which; where the goal is not
among it, no script leads there. `costs` gives a lower bound of the calls that are left from a state. `slicing` leaves out the objects,
processes and steps that no script of so few calls can use. `finding` looks for a script in the states of the model, with no more calls
than a bound that rises.
"""
