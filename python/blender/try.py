"""Tries the add-on in Blender itself; not part of the gate.

    blender --background --factory-startup --python-exit-code 1 --python python/blender/try.py
"""
import os
import sys

import bpy
import numpy as np

sys.path.insert(0, os.path.dirname(os.path.abspath(__file__)))
import mahunopi_surface  # noqa: E402

mahunopi_surface.register()


def taken(item, **words):
    """What the operator says to a mesh: the answer, and the error's words."""
    bpy.context.view_layer.objects.active = item
    try:
        return bpy.ops.object.mahunopi_surface(**words), ""
    except RuntimeError as error:
        return {"CANCELLED"}, str(error).strip()


def added(points, faces):
    mesh = bpy.data.meshes.new("tried")
    mesh.from_pydata(points, [], faces)
    item = bpy.data.objects.new("tried", mesh)
    bpy.context.collection.objects.link(item)
    return item


def volume(mesh):
    mesh.calc_loop_triangles()
    return sum(float(np.dot(mesh.vertices[t.vertices[0]].co, np.cross(mesh.vertices[t.vertices[1]].co, mesh.vertices[t.vertices[2]].co))) / 6
               for t in mesh.loop_triangles)


cube = bpy.data.objects["Cube"]
assert taken(cube, level=4) == ({"FINISHED"}, "")
made = bpy.context.active_object
assert (made.name, len(made.data.vertices), len(made.data.polygons)) == ("Cube surface", 770, 1536) and cube.hide_get()
assert 3 < volume(made.data) < 8 and not made.data.validate()
assert taken(cube, level=2, crisp=30) == ({"FINISHED"}, "") and volume(bpy.context.active_object.data) > 7

opened = added([(0, 0, 0), (1, 0, 0), (1, 1, 0), (0, 1, 0)], [(0, 1, 2, 3)])
answer, said = taken(opened)
assert answer == {"CANCELLED"} and "refused 34: 4 edges are not in exactly two faces: point 0 (0 0 0) to point 1" in said, said
bpy.ops.object.mode_set(mode="OBJECT")
assert sum(edge.select for edge in opened.data.edges) == 4 and tuple(bpy.context.tool_settings.mesh_select_mode) == (False, True, False)

ring = [(np.cos(k), np.sin(k), 0) for k in 2 * np.pi * np.arange(20) / 20]
tips = added([*ring, (0, 0, 1), (0, 0, -1)], [face for k in range(20) for face in ((k, 20, (k + 1) % 20), ((k + 1) % 20, 21, k))])
answer, said = taken(tips)
assert answer == {"CANCELLED"} and "refused 12: 2 vertices have fewer than 3 or more than 16 corners: point 20" in said, said
bpy.ops.object.mode_set(mode="OBJECT")
assert [vertex.index for vertex in tips.data.vertices if vertex.select] == [20, 21]
mahunopi_surface.unregister()
print("blender", bpy.app.version_string, "took the add-on")
