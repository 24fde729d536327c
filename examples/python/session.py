"""A session for a class: a server, a client, a request and its reply, and what is left when the server ends.

    PYTHONPATH=python python3 examples/python/session.py

It prints examples/python/session.out.
"""

from gelvonds import *


def show(title, contents):
    it = received(contents)
    print(f"{title}: id {it.id}, port {it.port}, reply by {it.reply}, body {it.body}")


with Kernel() as kernel:
    # Two tasks. A task has no names at first.
    server, client = kernel.task_create(), kernel.task_create()
    print("tasks", server, "and", client, "with the names", kernel.port_names(client))

    # The server makes a port, and has its receive right. The client gets a send right, under a name of its own.
    service = kernel.port_allocate(server)
    print("the server's name", service, "is", type_names(kernel.port_type(server, service)))
    asked = kernel.port_extract_right(server, make_send(service), client).name
    print("the client's name", asked, "is", type_names(kernel.port_type(client, asked)))

    # The client sends a request. Its reply right is a send-once right for a port of its own.
    answers = kernel.port_allocate(client)
    kernel.send(client, message(copy_send(asked), reply=make_send_once(answers), id=100, body=b"ping"))
    print("in the server's queue:", kernel.port_get_receive_status(server, service).msgcount)

    # The server receives it. The reply right is now under a fresh name of the server's.
    contents = kernel.receive(server, service)
    show("the server receives", contents)
    reply = received(contents).reply
    print("its name", reply.name, "is", type_names(kernel.port_type(server, reply.name)))

    # It replies by that right, which is used up: a second reply is refused.
    kernel.send(server, message(reply, id=200, body=b"pong"))
    show("the client receives", kernel.receive(client, answers))
    try:
        kernel.send(server, message(reply, id=200, body=b"pong"))
    except MachError as refused:
        print(f"a second reply is refused: {refused.name}, code {refused.code:08x}")

    # There is no other message, and no call waits for one.
    try:
        kernel.receive(client, answers)
    except NoMessage as empty:
        print("the client would wait:", empty.name)

    # The client asks for a notice, and the server ends: its port dies, and the client's name of it is a dead name.
    notices = kernel.port_allocate(client)
    kernel.port_request_notification(client, asked, MACH_NOTIFY_DEAD_NAME, make_send_once(notices))
    kernel.task_terminate(server)
    print("the client's name", asked, "is", type_names(kernel.port_type(client, asked)))
    print("the client is told:", notice(kernel.receive(client, notices)))
    try:
        kernel.send(client, message(copy_send(asked), id=100))
    except MachError as refused:
        print(f"a request is refused: {refused.name}")

    # The dead name has two references: the client's own, and one that came with the notice.
    kernel.port_mod_refs(client, asked, MACH_PORT_RIGHT_DEAD_NAME, -2)
    print("the client's names:", {name: type_names(bits) for name, bits in kernel.port_names(client).items()})
