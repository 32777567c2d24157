import xm23

machine = xm23.Machine(PC=0x1000, SP=0x0800)
machine.assemble("""
        ORG     $1000
        ADD     #1,R0
        END
""")
run = machine.run(1)
print("accepted, steps", run.steps, "depth", run.deepest, "R0", machine.R0)
