"""Blender add-on: the selected mesh becomes its smooth surface at a level.

Install it by Edit > Preferences > Add-ons > Install, and name there the folder that has the Python package mahunopi (python/ of a
checkout in which ./mahunopi has run, or lib/python3.*/site-packages of an installation). Then: Object > Smooth surface (Mahunopi).
"""

import os
import sys

import bpy
import numpy as np

bl_info = {"name": "Smooth surface (Mahunopi)", "author": "Mahunopi", "version": (5, 0), "blender": (3, 0, 0), "category": "Object",
           "location": "Object > Smooth surface (Mahunopi)", "description": "The selected closed mesh becomes its smooth surface"}
HERE = os.path.dirname(os.path.dirname(os.path.realpath(__file__)))


class Preferences(bpy.types.AddonPreferences):
    bl_idname = __name__
    folder: bpy.props.StringProperty(name="Folder of the package mahunopi", subtype="DIR_PATH", default="")

    def draw(self, context):
        self.layout.prop(self, "folder")


def package(context):
    """The package, from where the preferences say, or from the checkout that this file lies in."""
    addon = context.preferences.addons.get(__name__)
    named = bpy.path.abspath(addon.preferences.folder) if addon and addon.preferences else ""
    for folder in (named, HERE):
        if folder and os.path.isdir(os.path.join(folder, "mahunopi")) and folder not in sys.path:
            sys.path.append(folder)
    import mahunopi.importing
    import mahunopi.models
    import mahunopi.surface

    return mahunopi


def model_of(mahunopi, mesh):
    """A Blender mesh as a model: its points, and the points of each face."""
    points = np.empty(3 * len(mesh.vertices), np.float32)
    mesh.vertices.foreach_get("co", points)
    sides, corners = np.empty(len(mesh.polygons), np.int32), np.empty(len(mesh.loops), np.int32)
    mesh.polygons.foreach_get("loop_total", sides)
    mesh.loops.foreach_get("vertex_index", corners)
    return mahunopi.models.Model(points.reshape(-1, 3).astype(np.float64), sides.astype(np.int64), corners.astype(np.int64), True)


def new_mesh(name, points, triangles):
    """A Blender mesh of triangles, shaded smooth."""
    made = bpy.data.meshes.new(name)
    made.vertices.add(len(points))
    made.vertices.foreach_set("co", points.astype(np.float32).ravel())
    made.loops.add(triangles.size)
    made.loops.foreach_set("vertex_index", triangles.astype(np.int32).ravel())
    made.polygons.add(len(triangles))
    made.polygons.foreach_set("loop_start", np.arange(0, triangles.size, 3, dtype=np.int32))
    made.polygons.foreach_set("loop_total", np.full(len(triangles), 3, np.int32))
    made.polygons.foreach_set("use_smooth", np.ones(len(triangles), bool))
    made.update(calc_edges=True)
    return made


def select(context, mesh, causes):
    """Selects the points, or the edges, that a refusal is about."""
    bpy.ops.object.mode_set(mode="OBJECT")
    edges = {tuple(sorted(cause)) for cause in causes if len(cause) == 2}
    for items in (mesh.vertices, mesh.edges, mesh.polygons):
        items.foreach_set("select", np.zeros(len(items), bool))
    for edge in mesh.edges:
        edge.select = tuple(sorted(edge.vertices)) in edges
    for point in {point for cause in causes for point in cause}:
        mesh.vertices[point].select = True
    context.tool_settings.mesh_select_mode = (not edges, bool(edges), False)
    bpy.ops.object.mode_set(mode="EDIT")


class SmoothSurface(bpy.types.Operator):
    """Make the smooth surface of a closed mesh"""

    bl_idname = "object.mahunopi_surface"
    bl_label = "Smooth surface (Mahunopi)"
    bl_options = {"REGISTER", "UNDO"}
    level: bpy.props.IntProperty(name="Level", description="Parts of a triangle's side", default=4, min=1, max=16)
    largest: bpy.props.IntProperty(name="Grid steps", description="From the middle to the largest coordinate", default=60_000, min=1, max=65_536)
    crisp: bpy.props.FloatProperty(name="Crisp above", description="Corners both of whose edges bend by more degrees are crisp", default=180,
                                   min=0, max=180)

    @classmethod
    def poll(cls, context):
        return context.active_object is not None and context.active_object.type == "MESH"

    def execute(self, context):
        item = context.active_object
        try:
            mahunopi = package(context)
        except ImportError as error:
            self.report({"ERROR"}, f"the package mahunopi is not found, name its folder in the add-on's preferences ({error})")
            return {"CANCELLED"}
        bpy.ops.object.mode_set(mode="OBJECT")
        try:
            made = mahunopi.importing.import_model(model_of(mahunopi, item.data), self.largest, sharpness=self.crisp if self.crisp < 180 else None)
        except mahunopi.Refused as refused:
            self.report({"ERROR"}, str(refused))
            select(context, item.data, refused.causes)
            return {"CANCELLED"}
        smooth = mahunopi.surface.surface(made.mesh, mahunopi.surface.even_levels(made.mesh, self.level))
        name = item.name + " surface"
        new = bpy.data.objects.new(name, new_mesh(name, made.centre + made.step * smooth.points / 256, smooth.triangles))
        new.matrix_world = item.matrix_world
        for material in item.data.materials:
            new.data.materials.append(material)
        (item.users_collection[0] if item.users_collection else context.collection).objects.link(new)
        item.hide_set(True)
        context.view_layer.objects.active = new
        new.select_set(True)
        self.report({"INFO"}, f"{len(smooth.points):,} points, {len(smooth.triangles):,} triangles")
        return {"FINISHED"}


def menu(self, context):
    self.layout.operator(SmoothSurface.bl_idname)


def register():
    bpy.utils.register_class(Preferences)
    bpy.utils.register_class(SmoothSurface)
    bpy.types.VIEW3D_MT_object.append(menu)


def unregister():
    bpy.types.VIEW3D_MT_object.remove(menu)
    bpy.utils.unregister_class(SmoothSurface)
    bpy.utils.unregister_class(Preferences)
